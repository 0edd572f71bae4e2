//! What document 01 fixes by name: its numbers, the two sides, what each call answers, and how the
//! C interface packs an answer. Everything else here is written from these.

pub const MOST_CROSSINGS: u32 = 4_096;
pub const MOST_LINKS: u32 = 16_384;
pub const MOST_COST: u32 = 65_535;
pub const LEAST_STRETCH: u32 = 1_000;
pub const MOST_STRETCH: u32 = 4_000;
/// No least cost exceeds it; also the highest locality.
pub const CEILING: u32 = 268_365_825;
/// Stands for an unknown optimum and for the distance of an unseen crossing.
pub const UNKNOWN: u32 = 4_294_967_295;
pub const MOST_TEXT: usize = 1_048_576;

/// Room of the program: words for the map, crossings of the bench, bytes for the text.
pub const PROGRAM_MAP: usize = 12_288;
pub const PROGRAM_CROSSINGS: u32 = 1_024;
pub const PROGRAM_TEXT: usize = 65_536;

/// Words of a bench of n crossings.
pub fn bench_length(n: u32) -> usize {
    6 + 7 * n as usize
}

#[derive(Clone, Copy, Debug, PartialEq, Eq, PartialOrd, Ord)]
pub enum Side {
    Forward,
    Backward,
}

impl Side {
    pub fn other(self) -> Side {
        match self {
            Side::Forward => Side::Backward,
            Side::Backward => Side::Forward,
        }
    }
}

pub const SIDES: [Side; 2] = [Side::Forward, Side::Backward];

#[derive(Clone, Copy, Debug, PartialEq, Eq)]
pub enum Reading {
    Read { n: u32, m: u32 },
    Refused { number: u32, line: u32 },
}

#[derive(Clone, Copy, Debug, PartialEq, Eq)]
pub enum Opening {
    Opened,
    Refused(u32),
}

#[derive(Clone, Copy, Debug, PartialEq, Eq)]
pub enum Turn {
    Settled { crossing: u32, distance: u32 },
    Done,
    Refused(u32),
}

#[derive(Clone, Copy, Debug, PartialEq, Eq)]
pub enum Filling {
    Area,
    Refused(u32),
}

#[derive(Clone, Copy, Debug, PartialEq, Eq)]
pub enum Routing {
    Route { length: u32 },
    Refused(u32),
}

/// An answer as the C interface gives it: number x 2^56 + first x 2^28 + second.
pub fn packed(number: u32, first: u32, second: u32) -> u64 {
    (u64::from(number) << 56) + (u64::from(first) << 28) + u64::from(second)
}

/// The number of refusal of a packed answer, 0 if it isn't refused.
pub fn number_of(answer: u64) -> u32 {
    (answer >> 56) as u32
}

impl Reading {
    pub fn packed(self) -> u64 {
        match self {
            Reading::Read { n, m } => packed(0, n, m),
            Reading::Refused { number, line } => packed(number, line, 0),
        }
    }
}

impl Opening {
    pub fn packed(self) -> u64 {
        match self {
            Opening::Opened => packed(0, 0, 0),
            Opening::Refused(number) => packed(number, 0, 0),
        }
    }
}

impl Turn {
    pub fn packed(self) -> u64 {
        match self {
            Turn::Settled { crossing, distance } => packed(0, crossing, distance),
            Turn::Done => packed(0, 0, 0),
            Turn::Refused(number) => packed(number, 0, 0),
        }
    }
}

impl Filling {
    pub fn packed(self) -> u64 {
        match self {
            Filling::Area => packed(0, 0, 0),
            Filling::Refused(number) => packed(number, 0, 0),
        }
    }
}

impl Routing {
    pub fn packed(self) -> u64 {
        match self {
            Routing::Route { length } => packed(0, length, 0),
            Routing::Refused(number) => packed(number, 0, 0),
        }
    }
}

pub type ReadCall = fn(&[u8], &mut [u32]) -> u64;
pub type OpenCall = fn(&[u32], u32, u32, u32, u32, u32, &mut [u32]) -> u64;
pub type TurnCall = fn(Side, &[u32], u32, u32, &mut [u32]) -> u64;
pub type AreaCall = fn(&[u32], u32, u32, &[u32], u32, &mut [u8]) -> u64;
pub type RouteCall = fn(&[u32], u32, u32, &[u32], u32, &mut [u32]) -> u64;
/// The program: arguments and text to its output.
pub type Program = fn(&[Vec<u8>], &[u8]) -> Vec<u8>;

/// The public calls, answers packed, as the library, the reference and its wrong variants give them.
pub struct Calls {
    pub read: ReadCall,
    pub open: OpenCall,
    pub turn: TurnCall,
    pub area: AreaCall,
    pub route: RouteCall,
    pub booklet: Program,
}
