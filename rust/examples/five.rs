// The document's five crossings: the area from 1 to 5 at stretch 1,200 and locality 1, and the route through 4.
use sankayop::{
    area, backward, bench_words, forward, map_words, open, read, route, route_words, to_at,
};
use sankayop::{Filling, Opening, Reading, Refusal, Routing, Turn, FROM_AT, OPTIMUM_AT};

const TEXT: &[u8] = b"c five crossings\n\
    p sp 5 7\n\
    a 1 2 4\n\
    a 2 5 6\n\
    a 1 3 5\n\
    a 3 5 6\n\
    a 2 4 1\n\
    a 4 2 1\n\
    a 5 1 9\n";

/// Prints what a turn settled, and whether there was something to settle.
fn settled(half: &str, turn: Turn) -> Result<bool, Refusal> {
    match turn {
        Turn::Settled { crossing, distance } => println!("{half} {crossing} {distance}"),
        Turn::Done => return Ok(false),
        Turn::Refused(refusal) => return Err(refusal),
    }
    Ok(true)
}

fn main() -> Result<(), Refusal> {
    let mut map = [0; map_words(7)];
    let (n, m) = match read(TEXT, &mut map) {
        Reading::Read { n, m } => (n, m),
        Reading::Refused(refusal, _) => return Err(refusal),
    };
    println!("read {n} {m}");

    let mut bench = [0; bench_words(5)];
    if let Opening::Refused(refusal) = open(&map, n, m, 1, 5, 1200, &mut bench) {
        return Err(refusal);
    }
    // Turns alternately, forward first, until both halves are done.
    while settled("forward", forward(&map, n, m, &mut bench))?
        | settled("backward", backward(&map, n, m, &mut bench))?
    {}

    let mut mask = [0; 5];
    if let Filling::Refused(refusal) = area(&map, n, m, &bench, 1, &mut mask) {
        return Err(refusal);
    }
    println!("o {}", bench[OPTIMUM_AT]);
    for (i, &kind) in mask.iter().enumerate().filter(|(_, &kind)| kind > 0) {
        let through = bench[FROM_AT + i] + bench[to_at(n) + i];
        println!("{} {} {through}", if kind == 2 { 'l' } else { 'b' }, i + 1);
    }

    match route(&map, n, m, &bench, 4, &mut [0; route_words(5)]) {
        Routing::Route(crossings) => println!(
            "route {}",
            crossings
                .iter()
                .map(u32::to_string)
                .collect::<Vec<_>>()
                .join(" ")
        ),
        Routing::Refused(refusal) => return Err(refusal),
    }
    Ok(())
}
