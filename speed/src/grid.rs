//! The road maps that are timed: square grids with a link each way between neighbours, and some more links anywhere.

use std::fmt::Write;

pub struct Grid {
    pub n: u32,
    pub m: u32,
    pub text: Vec<u8>,
}

/// Xorshift of 64 bits.
pub struct Random(pub u64);

impl Random {
    pub fn below(&mut self, bound: u32) -> u32 {
        self.0 ^= self.0 << 13;
        self.0 ^= self.0 >> 7;
        self.0 ^= self.0 << 17;
        (((self.0 >> 32) * u64::from(bound)) >> 32) as u32
    }

    pub fn pick<T: Copy>(&mut self, of: &[T]) -> T {
        of[self.below(of.len() as u32) as usize]
    }
}

impl Grid {
    /// A grid of `side * side` crossings and four links a crossing, as a text of so many bytes, comments behind it.
    pub fn new(side: u32, bytes: usize) -> Self {
        let (n, m) = (side * side, 4 * side * side);
        let mut random = Random(0x9E37_79B9_7F4A_7C15);
        let mut text = format!("p sp {n} {m}\n");
        let mut left = m;
        let mut link = |tail: u32, head: u32, random: &mut Random| {
            left -= 1;
            writeln!(
                text,
                "a {} {} {}",
                tail + 1,
                head + 1,
                1 + random.below(999)
            )
            .expect("a string takes all");
            left
        };
        for v in 0..n {
            let neighbours = [
                (v % side + 1 < side).then_some(v + 1),
                (v + side < n).then_some(v + side),
            ];
            for u in neighbours.into_iter().flatten() {
                link(v, u, &mut random);
                link(u, v, &mut random);
            }
        }
        while link(random.below(n), random.below(n), &mut random) > 0 {}
        let mut text = text.into_bytes();
        // Comments of at most 80 bytes: `c`, a space, what fills it and LF.
        while text.len() < bytes {
            let length = (bytes - text.len()).min(80);
            let length = if bytes - text.len() - length == 1 {
                length - 1
            } else {
                length
            };
            text.extend(
                b"c "
                    .iter()
                    .copied()
                    .chain(std::iter::repeat(b'.'))
                    .take(length - 1)
                    .chain([b'\n']),
            );
        }
        assert_eq!(text.len(), bytes, "the links fit the text");
        Grid { n, m, text }
    }
}
