//! Document 01's own rows, "Five crossings to check by" and the program's sample, of the reference and of the
//! theory, with the values of the document; and that the comparison finds every wrong variant.

use crate::comparison::Comparison;
use crate::inputs::{five_crossings, five_crossings_cut, FIVE_TEXT};
use crate::paper::*;
use crate::reference::{self, area, booklet, open, read, route, turn};
use crate::stages::Stage;
use crate::theory::{Map, Order, Theory};
use crate::wrong::WRONG;
use std::time::Duration;

/// No time beyond the inputs that are always compared, so that the tests come out the same on any machine.
const BOUND: Duration = Duration::ZERO;

/// Enough inputs to meet every number and to find every wrong variant, those that find most of them first.
const FEW: &[Stage] = &[
    Comparison::texts,
    |comparison| comparison.rounds(8),
    Comparison::programs,
    Comparison::long_texts,
    Comparison::five_crossings,
    Comparison::changes,
];

/// A map with a bench on which turns are taken.
struct Work {
    map: Map,
    bench: Vec<u32>,
}

fn opened(map: Map, start: u32, target: u32, stretch: u32) -> Work {
    let mut bench = vec![0; bench_length(map.n)];
    let (n, m) = (map.n, map.m());
    let opening = open(&map.words, n, m, start, target, stretch, &mut bench);
    assert_eq!(opening, Opening::Opened);
    Work { map, bench }
}

impl Work {
    fn turn(&mut self, side: Side) -> Turn {
        turn(
            side,
            &self.map.words,
            self.map.n,
            self.map.m(),
            &mut self.bench,
        )
    }

    /// Crossing and distance of each turn until the half is done.
    fn turns(&mut self, side: Side) -> Vec<(u32, u32)> {
        let mut settled = Vec::new();
        while let Turn::Settled { crossing, distance } = self.turn(side) {
            settled.push((crossing, distance));
        }
        assert_eq!(self.turn(side), Turn::Done);
        settled
    }

    fn finish(mut self) -> Work {
        self.turns(Side::Forward);
        self.turns(Side::Backward);
        self
    }

    fn marks(&self) -> Vec<u32> {
        let marks = &self.bench[6 + 6 * self.map.n as usize..];
        (1..)
            .zip(marks)
            .filter(|(_, &mark)| mark == 1)
            .map(|(crossing, _)| crossing)
            .collect()
    }

    fn area(&self, locality: u32) -> (Filling, Vec<u8>) {
        let mut mask = vec![9; self.map.n as usize];
        let (n, m) = (self.map.n, self.map.m());
        let filling = area(&self.map.words, n, m, &self.bench, locality, &mut mask);
        (filling, mask)
    }

    fn route(&self, crossing: u32) -> (Routing, Vec<u32>) {
        let mut buffer = vec![0; 2 * self.map.n as usize];
        let (n, m) = (self.map.n, self.map.m());
        let routing = route(&self.map.words, n, m, &self.bench, crossing, &mut buffer);
        (routing, buffer)
    }
}

fn theory(map: &Map, start: u32, target: u32, stretch: u32) -> Theory {
    Theory::new(map, Order::new(start, target, stretch))
}

/// The crossings that a mask gives at least this byte.
fn at_least(mask: &[u8], byte: u8) -> Vec<u32> {
    (1..)
        .zip(mask)
        .filter(|(_, &other)| other >= byte)
        .map(|(crossing, _)| crossing)
        .collect()
}

#[test]
fn area_by_stretch() {
    let rows: [(u32, &[u32]); 4] = [
        (1_099, &[1, 2, 5]),
        (1_100, &[1, 2, 3, 5]),
        (1_199, &[1, 2, 3, 5]),
        (1_200, &[1, 2, 3, 4, 5]),
    ];
    for (stretch, b) in rows {
        let work = opened(five_crossings(), 1, 5, stretch).finish();
        let theory = theory(&five_crossings(), 1, 5, stretch);
        assert_eq!(work.bench[5], 10);
        assert_eq!(theory.optimum(), Some(10));
        assert_eq!(work.marks(), b);
        assert_eq!(at_least(&work.area(0).1, 1), b);
        assert_eq!(at_least(&theory.mask(0), 1), b);
        assert_eq!(work.bench, theory.finished());
    }
}

#[test]
fn turns_settle() {
    let forward = [(1, 0), (2, 4), (3, 5), (4, 5), (5, 10)];
    let backward = [(5, 0), (2, 6), (3, 6), (4, 7), (1, 10)];
    let mut work = opened(five_crossings(), 1, 5, 1_200);
    let theory = theory(&five_crossings(), 1, 5, 1_200);
    for (side, settled) in [(Side::Forward, forward), (Side::Backward, backward)] {
        assert_eq!(work.turns(side), settled);
        for (count, (crossing, distance)) in settled.into_iter().enumerate() {
            let answer = Turn::Settled { crossing, distance };
            assert_eq!(theory.turn(side, count), answer);
        }
        assert_eq!(theory.turn(side, 5), Turn::Done);
    }
}

#[test]
fn marks_come_with_the_optimum() {
    let mut work = opened(five_crossings(), 1, 5, 1_200);
    let theory = theory(&five_crossings(), 1, 5, 1_200);
    for side in [Side::Forward, Side::Backward].repeat(4) {
        work.turn(side);
    }
    assert_eq!(work.bench[5], UNKNOWN);
    assert_eq!(work.marks(), []);
    assert_eq!(work.bench, theory.bench(4, 4));
    work.turn(Side::Forward);
    assert_eq!(work.marks(), [2, 3, 4, 5]);
    assert_eq!(work.bench, theory.bench(5, 4));
}

#[test]
fn area_by_locality() {
    let rows: [(u32, &[u32]); 4] = [
        (0, &[1, 2, 3, 4, 5]),
        (1, &[1, 2, 3, 5]),
        (4, &[1, 2, 3, 5]),
        (5, &[1, 2, 5]),
    ];
    let work = opened(five_crossings(), 1, 5, 1_200).finish();
    let theory = theory(&five_crossings(), 1, 5, 1_200);
    for (locality, bl) in rows {
        let (filling, mask) = work.area(locality);
        assert_eq!(filling, Filling::Area);
        assert_eq!(at_least(&mask, 2), bl);
        assert_eq!(at_least(&theory.mask(locality), 2), bl);
    }
}

#[test]
fn route_through_4() {
    let work = opened(five_crossings(), 1, 5, 1_200).finish();
    let (routing, buffer) = work.route(4);
    assert_eq!(routing, Routing::Route { length: 5 });
    assert_eq!(buffer[..5], [1, 2, 4, 2, 5]);
    let route = theory(&five_crossings(), 1, 5, 1_200).route(4);
    assert_eq!(route, Some(vec![1, 2, 4, 2, 5]));
}

#[test]
fn start_is_target() {
    let work = opened(five_crossings(), 3, 3, 4_000).finish();
    let theory = theory(&five_crossings(), 3, 3, 4_000);
    assert_eq!(work.bench[5], 0);
    assert_eq!(theory.optimum(), Some(0));
    assert_eq!(work.marks(), [3]);
    assert_eq!(at_least(&theory.mask(0), 1), [3]);
}

#[test]
fn no_route() {
    let mut work = opened(five_crossings_cut(), 5, 1, 1_200);
    assert_eq!(work.turns(Side::Forward), [(5, 0)]);
    assert_eq!(work.turns(Side::Backward), [(1, 0)]);
    assert_eq!(work.area(0).0, Filling::Refused(9));
    assert_eq!(work.route(1).0, Routing::Refused(9));
    let theory = theory(&five_crossings_cut(), 5, 1, 1_200);
    assert_eq!(theory.optimum(), None);
    assert_eq!(SIDES.map(|side| theory.settles(side)), [1, 1]);
    assert_eq!(work.bench, theory.finished());
}

#[test]
fn texts() {
    let refused = |number, line| Reading::Refused { number, line };
    let reading = |text: &str| read(text.as_bytes(), &mut [0; 30]);
    assert_eq!(reading(""), refused(1, 1));
    assert_eq!(reading("p sp 1 0\n"), Reading::Read { n: 1, m: 0 });
    assert_eq!(reading("p sp 4096 0\n"), Reading::Read { n: 4_096, m: 0 });
    assert_eq!(reading("p sp 4097 0\n"), refused(2, 1));
    let link = |w: u32| reading(&format!("p sp 1 1\na 1 1 {w}\n"));
    assert_eq!(link(65_535), Reading::Read { n: 1, m: 1 });
    assert_eq!(link(0), refused(5, 2));
    assert_eq!(link(65_536), refused(5, 2));
    let mut map = [0; 21];
    assert_eq!(read(FIVE_TEXT, &mut map), Reading::Read { n: 5, m: 7 });
    assert_eq!(map[..], five_crossings().words);
}

#[test]
fn ranges_of_opening() {
    let map = five_crossings().words;
    let opening = |stretch, room| open(&map, 5, 7, 1, 5, stretch, &mut vec![0; room]);
    assert_eq!(opening(999, 41), Opening::Refused(5));
    assert_eq!(opening(4_001, 41), Opening::Refused(5));
    assert_eq!(opening(1_200, 41), Opening::Opened);
    assert_eq!(opening(1_200, 40), Opening::Refused(3));
}

#[test]
fn program() {
    let arguments = ["1", "5", "1200", "1"].map(|word| word.as_bytes().to_vec());
    let output = booklet(&arguments, FIVE_TEXT);
    assert_eq!(output, b"o 10\nl 1 10\nl 2 10\nl 3 11\nb 4 12\nl 5 10\n");
}

#[test]
fn the_same_is_the_same_and_wrong_variants_are_found() {
    let reference = &reference::CALLS;
    let mut comparison = Comparison::new(reference, reference, WRONG, BOUND);
    comparison.run(FEW);
    assert_eq!(comparison.difference(), None);
    assert_eq!(comparison.unmet(), None);
    assert_eq!(comparison.unfound(), [""; 0]);
}

/// The same fault on both sides: only the definitions can find it.
#[test]
fn definitions_find_variants_too() {
    let seen_after_opening = [
        "tie-by-higher-crossing",
        "tie-by-higher-link",
        "done-at-the-limit",
        "mark-below-the-limit",
        "mark-only-the-settled",
        "stop-at-the-target",
        "divide-first",
        "limit-rounded-up",
        "locality-strict",
        "route-names-twice",
    ];
    for (name, calls) in WRONG {
        if seen_after_opening.contains(name) {
            let mut comparison = Comparison::new(*calls, calls, &[], BOUND);
            comparison.run(&[Comparison::five_crossings, |comparison| {
                comparison.rounds(8)
            }]);
            assert!(comparison.difference().is_some(), "{name} isn't found");
        }
    }
}
