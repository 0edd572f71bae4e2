//! Bypass areas, reckoned by a library whose every promise is proved: it reads a road map, opens a bench for one order,
//! advances either half of it by one crossing a call, and reports the area and its routes.
//!
//! The road map is a slice of 32-bit words, tail, head and cost of each link in turn: links are numbered 1 to m in that
//! order, crossings 1 to n. The caller lends the map, the bench, the mask and the route's buffer; a call writes nothing
//! else, keeps nothing, and no input makes it fail, wrap or run on. A refusal leaves all lent memory as it was.
//!
//! ```
#![doc = include_str!("../examples/five.rs")]
//! ```
#![warn(missing_docs)]

mod c;
mod refusal;

pub use refusal::Refusal;

/// The words of a map of `m` links.
pub const fn map_words(m: u32) -> usize {
    3 * m as usize
}

/// The words of a bench for `n` crossings.
pub const fn bench_words(n: u32) -> usize {
    6 + 7 * n as usize
}

/// The most words of a route among `n` crossings.
pub const fn route_words(n: u32) -> usize {
    (2 * n as usize).saturating_sub(1)
}

/// Where a bench holds the optimum, [`UNKNOWN`] until a half has found it.
pub const OPTIMUM_AT: usize = 5;

/// Where the distances of crossings 1 to `n` from the start begin.
pub const FROM_AT: usize = 6;

/// Where the distances of crossings 1 to `n` to the target begin.
pub const fn to_at(n: u32) -> usize {
    6 + 3 * n as usize
}

/// Where the marks of crossings 1 to `n` begin.
pub const fn marks_at(n: u32) -> usize {
    6 + 6 * n as usize
}

/// An optimum that is not known yet, and the distance of a crossing that is not seen.
pub const UNKNOWN: u32 = u32::MAX;

/// What [`read`] answers.
#[derive(Clone, Copy, Debug, PartialEq, Eq)]
pub enum Reading {
    /// The map is written: its crossings and links.
    Read {
        /// How many crossings.
        n: u32,
        /// How many links.
        m: u32,
    },
    /// The first fault, and its line, counted from 1; 0 for a text too long.
    Refused(Refusal, u32),
}

/// What [`open`] answers.
#[derive(Clone, Copy, Debug, PartialEq, Eq)]
pub enum Opening {
    /// The bench is written.
    Opened,
    /// The first fault.
    Refused(Refusal),
}

/// What [`forward`] and [`backward`] answer.
#[derive(Clone, Copy, Debug, PartialEq, Eq)]
pub enum Turn {
    /// One more crossing is settled.
    Settled {
        /// The crossing.
        crossing: u32,
        /// Its distance from the start, or to the target.
        distance: u32,
    },
    /// The half is done; nothing changed.
    Done,
    /// The first fault.
    Refused(Refusal),
}

/// What [`area`] answers.
#[derive(Clone, Copy, Debug, PartialEq, Eq)]
pub enum Filling {
    /// The mask is filled.
    Area,
    /// The first fault.
    Refused(Refusal),
}

/// What [`route`] answers.
#[derive(Debug, PartialEq, Eq)]
pub enum Routing<'a> {
    /// The filled part of the buffer: start, .., the asked crossing, .., target.
    Route(&'a mut [u32]),
    /// The first fault.
    Refused(Refusal),
}

/// An answer of the C interface taken apart: its two values, or the refusal and what goes with it.
fn parts(answer: u64) -> Result<(u32, u32), (Refusal, u32)> {
    let first = (answer >> 28) as u32 & 0xFFF_FFFF;
    let second = answer as u32 & 0xFFF_FFFF;
    match (answer >> 56) as u32 {
        0 => Ok((first, second)),
        number => Err((
            Refusal::of(number).expect("the library answers 0 to 10"),
            first,
        )),
    }
}

/// Reads a text in the `.gr` layout and writes its links over the first words of the map.
///
/// Refused: [`Refusal::Layout`] to [`Refusal::Amount`].
pub fn read(text: &[u8], map: &mut [u32]) -> Reading {
    let answer =
        unsafe { c::sankayop_read(text.as_ptr(), text.len(), map.as_mut_ptr(), map.len()) };
    match parts(answer) {
        Ok((n, m)) => Reading::Read { n, m },
        Err((refusal, line)) => Reading::Refused(refusal, line),
    }
}

/// Opens the bench for one order; the stretch is in thousandths.
///
/// Refused: [`Refusal::Size`] to [`Refusal::Amount`].
pub fn open(
    map: &[u32],
    n: u32,
    m: u32,
    start: u32,
    target: u32,
    stretch: u32,
    bench: &mut [u32],
) -> Opening {
    let answer = unsafe {
        c::sankayop_open(
            map.as_ptr(),
            map.len(),
            n,
            m,
            start,
            target,
            stretch,
            bench.as_mut_ptr(),
            bench.len(),
        )
    };
    match parts(answer) {
        Ok(_) => Opening::Opened,
        Err((refusal, _)) => Opening::Refused(refusal),
    }
}

fn turn(answer: u64) -> Turn {
    match parts(answer) {
        Ok((0, _)) => Turn::Done,
        Ok((crossing, distance)) => Turn::Settled { crossing, distance },
        Err((refusal, _)) => Turn::Refused(refusal),
    }
}

/// One turn of the forward half: settles the crossing nearest to the start that is not settled.
///
/// Refused: [`Refusal::Size`] to [`Refusal::Shape`].
pub fn forward(map: &[u32], n: u32, m: u32, bench: &mut [u32]) -> Turn {
    turn(unsafe {
        c::sankayop_forward(
            map.as_ptr(),
            map.len(),
            n,
            m,
            bench.as_mut_ptr(),
            bench.len(),
        )
    })
}

/// One turn of the backward half: settles the crossing nearest to the target that is not settled.
///
/// Refused: [`Refusal::Size`] to [`Refusal::Shape`].
pub fn backward(map: &[u32], n: u32, m: u32, bench: &mut [u32]) -> Turn {
    turn(unsafe {
        c::sankayop_backward(
            map.as_ptr(),
            map.len(),
            n,
            m,
            bench.as_mut_ptr(),
            bench.len(),
        )
    })
}

/// The area, once both halves are done: fills the first `n` bytes of the mask, 2 for a crossing in the locally optimal
/// area, 1 for one in the area only, 0 for the others.
///
/// Refused: [`Refusal::Size`] to [`Refusal::NoRoute`].
pub fn area(map: &[u32], n: u32, m: u32, bench: &[u32], locality: u32, mask: &mut [u8]) -> Filling {
    let answer = unsafe {
        c::sankayop_area(
            map.as_ptr(),
            map.len(),
            n,
            m,
            bench.as_ptr(),
            bench.len(),
            locality,
            mask.as_mut_ptr(),
            mask.len(),
        )
    };
    match parts(answer) {
        Ok(_) => Filling::Area,
        Err((refusal, _)) => Filling::Refused(refusal),
    }
}

/// The route through a crossing of the area, once both halves are done, in the first words of the buffer.
///
/// Refused: [`Refusal::Size`] to [`Refusal::Outside`].
pub fn route<'a>(
    map: &[u32],
    n: u32,
    m: u32,
    bench: &[u32],
    crossing: u32,
    buffer: &'a mut [u32],
) -> Routing<'a> {
    let answer = unsafe {
        c::sankayop_route(
            map.as_ptr(),
            map.len(),
            n,
            m,
            bench.as_ptr(),
            bench.len(),
            crossing,
            buffer.as_mut_ptr(),
            buffer.len(),
        )
    };
    match parts(answer) {
        Ok((filled, _)) => Routing::Route(&mut buffer[..filled as usize]),
        Err((refusal, _)) => Routing::Refused(refusal),
    }
}
