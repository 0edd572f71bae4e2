//! Every refusal is met through a call, changes nothing that is lent, and has the words of the header.

use sankayop::*;

/// One link, from crossing 1 to crossing 2.
const MAP: [u32; 3] = [1, 2, 3];

/// A bench opened on it for an order among n crossings, after so many turns of each half.
fn bench(n: u32, start: u32, target: u32, turns: u32) -> Vec<u32> {
    let mut bench = vec![0; bench_words(n)];
    let opened = open(&MAP, n, 1, start, target, 1000, &mut bench);
    assert_eq!(opened, Opening::Opened);
    for _ in 0..turns {
        forward(&MAP, n, 1, &mut bench);
        backward(&MAP, n, 1, &mut bench);
    }
    bench
}

fn refused_read(text: &[u8], room: usize) -> (Refusal, u32) {
    let mut map = vec![7; room];
    let Reading::Refused(refusal, line) = read(text, &mut map) else {
        panic!("the text is read");
    };
    assert!(map.iter().all(|&word| word == 7), "the map is written");
    (refusal, line)
}

fn refused_opening(n: u32, start: u32, stretch: u32, room: usize) -> Refusal {
    let mut bench = vec![7; room];
    let Opening::Refused(refusal) = open(&MAP, n, 1, start, 2, stretch, &mut bench) else {
        panic!("the bench is opened");
    };
    assert!(bench.iter().all(|&word| word == 7), "the bench is written");
    refusal
}

fn refused_area(bench: &[u32]) -> Refusal {
    let mut mask = [7; 2];
    let Filling::Refused(refusal) = area(&MAP, 2, 1, bench, 0, &mut mask) else {
        panic!("there is an area");
    };
    assert_eq!(mask, [7; 2], "the mask is written");
    refusal
}

fn refused_route(bench: &[u32], crossing: u32) -> Refusal {
    let mut buffer = [7; 5];
    let Routing::Refused(refusal) = route(&MAP, 3, 1, bench, crossing, &mut buffer) else {
        panic!("there is a route");
    };
    assert_eq!(buffer, [7; 5], "the buffer is written");
    refusal
}

#[test]
fn texts() {
    assert_eq!(refused_read(b"", 3), (Refusal::Layout, 1));
    assert_eq!(refused_read(b"p sp 0 1\n", 3), (Refusal::Size, 1));
    assert_eq!(refused_read(&vec![b'c'; 1_048_577], 3), (Refusal::Size, 0));
    assert_eq!(refused_read(b"c\np sp 2 1\n", 2), (Refusal::Room, 2));
    assert_eq!(
        refused_read(b"p sp 2 1\na 1 3 3\n", 3),
        (Refusal::Crossing, 2)
    );
    assert_eq!(
        refused_read(b"p sp 2 1\na 1 2 0\n", 3),
        (Refusal::Amount, 2)
    );
}

#[test]
fn orders() {
    assert_eq!(refused_opening(0, 1, 1000, 20), Refusal::Size);
    assert_eq!(refused_opening(2, 1, 1000, 19), Refusal::Room);
    assert_eq!(refused_opening(2, 3, 1000, 20), Refusal::Crossing);
    assert_eq!(refused_opening(2, 1, 999, 20), Refusal::Amount);
}

#[test]
fn turns() {
    let mut bench = [7; bench_words(2)];
    assert_eq!(
        forward(&MAP, 2, 1, &mut bench),
        Turn::Refused(Refusal::Shape)
    );
    assert_eq!(
        backward(&MAP, 2, 1, &mut bench),
        Turn::Refused(Refusal::Shape)
    );
    assert_eq!(bench, [7; bench_words(2)], "the bench is written");
}

#[test]
fn areas() {
    assert_eq!(refused_area(&bench(2, 1, 2, 0)), Refusal::NotDone);
    assert_eq!(refused_area(&bench(2, 2, 1, 3)), Refusal::NoRoute);
    let mut unsound = bench(2, 1, 2, 3);
    unsound[marks_at(2)] = 0;
    assert_eq!(refused_area(&unsound), Refusal::Trails);
}

#[test]
fn routes() {
    // No link leads to the third crossing.
    let bench = bench(3, 1, 2, 4);
    assert_eq!(refused_route(&bench, 3), Refusal::Outside);
    assert_eq!(refused_route(&bench, 4), Refusal::Crossing);
}

#[test]
fn words() {
    let header = include_str!("../../include/sankayop.h");
    for (number, refusal) in (1..).zip(Refusal::ALL) {
        assert_eq!(refusal.number(), number);
        assert_eq!(Refusal::of(number), Some(refusal));
        let line = format!("\n * {number:4}  {}\n", refusal.words());
        assert!(
            header.contains(&line),
            "the header has other words for {number}"
        );
    }
    assert_eq!(Refusal::of(0), None);
    assert_eq!(Refusal::of(11), None);
    assert_eq!(
        Refusal::NoRoute.to_string(),
        "9: both halves are done and there is no route"
    );
}
