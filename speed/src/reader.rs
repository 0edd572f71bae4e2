//! The reader in plain, idiomatic Rust: it checks the whole text, then writes the map.

enum Line {
    Comment,
    Size(u32, u32),
    Link(u32, u32, u32),
}

/// A number without leading zeros, and what is behind it and the byte that ends it.
fn field(line: &[u8], stop: u8) -> Option<(u32, &[u8])> {
    let mut value = 0_u32;
    for (i, &byte) in line.iter().enumerate() {
        if !byte.is_ascii_digit() {
            let good = byte == stop && (i == 1 || (i > 1 && line[0] != b'0'));
            return good.then(|| (value, &line[i + 1..]));
        }
        value = value.checked_mul(10)?.checked_add(u32::from(byte - b'0'))?;
    }
    None
}

fn line(line: &[u8]) -> Option<Line> {
    match line {
        [b'c', b'\n'] | [b'c', b' ', .., b'\n'] => Some(Line::Comment),
        [b'p', b' ', b's', b'p', b' ', rest @ ..] => {
            let (n, rest) = field(rest, b' ')?;
            let (m, _) = field(rest, b'\n')?;
            Some(Line::Size(n, m))
        }
        [b'a', b' ', rest @ ..] => {
            let (u, rest) = field(rest, b' ')?;
            let (v, rest) = field(rest, b' ')?;
            let (w, _) = field(rest, b'\n')?;
            Some(Line::Link(u, v, w))
        }
        _ => None,
    }
}

fn lines(text: &[u8]) -> impl Iterator<Item = Option<Line>> + '_ {
    text.split_inclusive(|&byte| byte == b'\n').map(line)
}

/// n and m, where the text is good; else the number of refusal and its line.
fn check(text: &[u8], room: usize) -> Result<(u32, u32), (u32, u32)> {
    if text.len() > 1_048_576 {
        return Err((2, 0));
    }
    let (mut size, mut read, mut number) = (None, 0, 1);
    for line in lines(text) {
        match line.ok_or((1, number))? {
            Line::Comment => {}
            Line::Size(n, m) => {
                if size.is_some() {
                    return Err((1, number));
                }
                if !(1..=4096).contains(&n) || m > 16384 {
                    return Err((2, number));
                }
                if room < 3 * m as usize {
                    return Err((3, number));
                }
                size = Some((n, m));
            }
            Line::Link(u, v, w) => {
                let Some((n, _)) = size.filter(|&(_, m)| read < m) else {
                    return Err((1, number));
                };
                if !(1..=n).contains(&u) || !(1..=n).contains(&v) {
                    return Err((4, number));
                }
                if !(1..=65535).contains(&w) {
                    return Err((5, number));
                }
                read += 1;
            }
        }
        number += 1;
    }
    size.filter(|&(_, m)| read == m).ok_or((1, number))
}

pub fn read(text: &[u8], map: &mut [u32]) -> Result<(u32, u32), (u32, u32)> {
    let size = check(text, map.len())?;
    let links = lines(text).filter_map(|line| match line {
        Some(Line::Link(u, v, w)) => Some([u, v, w]),
        _ => None,
    });
    let (words, _) = map.as_chunks_mut();
    for (to, link) in words.iter_mut().zip(links) {
        *to = link;
    }
    Ok(size)
}
