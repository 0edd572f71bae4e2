//! Every public call of document 01 straight from its words, for any input.
//!
//! Each call looks for its refusals in the order of "Numbers of refusal" and writes nothing before the
//! last of them. A bench is taken apart into a `Bench`, changed as the rules say, and written back. Code
//! speaks of the forward half; the backward half is the same with each link driven against its direction.

use crate::paper::*;
use std::iter::successors;

pub const CALLS: Calls = Calls {
    read: |text, map| read(text, map).packed(),
    open: |map, n, m, start, target, stretch, bench| {
        open(map, n, m, start, target, stretch, bench).packed()
    },
    turn: |side, map, n, m, bench| turn(side, map, n, m, bench).packed(),
    area: |map, n, m, bench, locality, mask| area(map, n, m, bench, locality, mask).packed(),
    route: |map, n, m, bench, crossing, buffer| route(map, n, m, bench, crossing, buffer).packed(),
    booklet,
};

/// A number of refusal.
type Number = u32;

// Road map

#[derive(Clone, Copy)]
struct Link {
    tail: u32,
    head: u32,
    cost: u32,
}

impl Link {
    /// A link of a map of n crossings: 4 for its tail, then its head, then 5.
    fn new(n: u32, tail: u32, head: u32, cost: u32) -> Result<Link, Number> {
        check_crossing(n, tail)?;
        check_crossing(n, head)?;
        check_cost(cost)?;
        Ok(Link { tail, head, cost })
    }

    fn driven(self, side: Side) -> Link {
        match side {
            Side::Forward => self,
            Side::Backward => Link {
                tail: self.head,
                head: self.tail,
                cost: self.cost,
            },
        }
    }
}

fn check_crossing(n: u32, crossing: u32) -> Result<(), Number> {
    if (1..=n).contains(&crossing) {
        Ok(())
    } else {
        Err(4)
    }
}

fn check_cost(cost: u32) -> Result<(), Number> {
    if (1..=MOST_COST).contains(&cost) {
        Ok(())
    } else {
        Err(5)
    }
}

fn check_counts(n: u32, m: u32) -> Result<(), Number> {
    if (1..=MOST_CROSSINGS).contains(&n) && m <= MOST_LINKS {
        Ok(())
    } else {
        Err(2)
    }
}

fn stretch_in_range(stretch: u32) -> bool {
    (LEAST_STRETCH..=MOST_STRETCH).contains(&stretch)
}

/// The links of a lent map: counts 2, map room 3, then link by link 4 and 5.
fn links_of(map: &[u32], n: u32, m: u32) -> Result<Vec<Link>, Number> {
    check_counts(n, m)?;
    let words = map.get(..3 * m as usize).ok_or(3u32)?;
    let mut links = Vec::with_capacity(m as usize);
    for link in words.chunks_exact(3) {
        links.push(Link::new(n, link[0], link[1], link[2])?);
    }
    Ok(links)
}

// The bench

/// Distance and link number that a half holds for a crossing it has seen.
#[derive(Clone, Copy, PartialEq)]
struct Way {
    distance: u32,
    link: u32,
}

const ROOT: Way = Way {
    distance: 0,
    link: 0,
};

#[derive(Clone, Copy)]
enum Place {
    Unseen,
    Open(Way),
    Settled(Way),
}

impl Place {
    fn parse(m: u32, distance: u32, link: u32, state: u32) -> Option<Place> {
        let seen = distance <= CEILING && link <= m;
        match state {
            0 if distance == UNKNOWN && link == 0 => Some(Place::Unseen),
            1 if seen => Some(Place::Open(Way { distance, link })),
            2 if seen => Some(Place::Settled(Way { distance, link })),
            _ => None,
        }
    }

    /// Distance, link number and state.
    fn words(self) -> [u32; 3] {
        match self {
            Place::Unseen => [UNKNOWN, 0, 0],
            Place::Open(way) => [way.distance, way.link, 1],
            Place::Settled(way) => [way.distance, way.link, 2],
        }
    }
}

/// One half: the place of each crossing.
struct Half(Vec<Place>);

impl Half {
    fn opened(n: u32, root: u32) -> Half {
        let mut half = Half(vec![Place::Unseen; n as usize]);
        *half.at_mut(root) = Place::Open(ROOT);
        half
    }

    fn parse(n: u32, m: u32, words: &[u32]) -> Option<Half> {
        let n = n as usize;
        (0..n)
            .map(|i| Place::parse(m, words[i], words[n + i], words[2 * n + i]))
            .collect::<Option<_>>()
            .map(Half)
    }

    fn words(&self) -> impl Iterator<Item = u32> + '_ {
        let part = |part: usize| self.0.iter().map(move |place| place.words()[part]);
        part(0).chain(part(1)).chain(part(2))
    }

    fn at(&self, crossing: u32) -> Place {
        self.0[crossing as usize - 1]
    }

    fn at_mut(&mut self, crossing: u32) -> &mut Place {
        &mut self.0[crossing as usize - 1]
    }

    fn settled(&self, crossing: u32) -> Option<Way> {
        match self.at(crossing) {
            Place::Settled(way) => Some(way),
            _ => None,
        }
    }

    /// Distance and number of the open crossing of least distance, the lower number on a tie.
    fn nearest(&self) -> Option<(u32, u32)> {
        (1..)
            .zip(&self.0)
            .filter_map(|(crossing, place)| match place {
                Place::Open(way) => Some((way.distance, crossing)),
                _ => None,
            })
            .min_by_key(|&(distance, crossing)| (distance, crossing))
    }

    /// Rule 2 for one link that leaves the crossing just settled at this distance.
    fn look(&mut self, number: u32, link: Link, distance: u32) {
        let sum = distance + link.cost;
        if sum > CEILING {
            return;
        }
        let place = self.at_mut(link.head);
        let better = match *place {
            Place::Settled(_) => false,
            Place::Unseen => true,
            Place::Open(way) if sum == way.distance => number < way.link,
            Place::Open(way) => sum < way.distance,
        };
        if better {
            *place = Place::Open(Way {
                distance: sum,
                link: number,
            });
        }
    }

    /// The crossings of a trail, on sound trails, from this one back to the root of the half.
    fn trail<'a>(
        &'a self,
        side: Side,
        links: &'a [Link],
        crossing: u32,
    ) -> impl Iterator<Item = (u32, Way)> + 'a {
        let step = move |crossing| Some((crossing, self.settled(crossing)?));
        successors(step(crossing), move |(_, way)| {
            let link = links[way.link.checked_sub(1)? as usize];
            step(link.driven(side).tail)
        })
    }
}

struct Bench {
    n: u32,
    m: u32,
    start: u32,
    target: u32,
    stretch: u32,
    optimum: Option<u32>,
    forward: Half,
    backward: Half,
    marks: Vec<bool>,
}

impl Bench {
    fn opened(n: u32, m: u32, start: u32, target: u32, stretch: u32) -> Bench {
        Bench {
            n,
            m,
            start,
            target,
            stretch,
            optimum: None,
            forward: Half::opened(n, start),
            backward: Half::opened(n, target),
            marks: vec![false; n as usize],
        }
    }

    /// The bench in the first words of a lent slice: 3 for its room, then 6 for its shape.
    fn lent(n: u32, m: u32, bench: &[u32]) -> Result<Bench, Number> {
        let words = bench.get(..bench_length(n)).ok_or(3u32)?;
        Bench::parse(n, m, words).ok_or(6)
    }

    /// The bench in these 6 + 7n words, if it is well shaped for a map of n crossings and m links.
    fn parse(n: u32, m: u32, words: &[u32]) -> Option<Bench> {
        let (header, parts) = words.split_at(6);
        let (forward, parts) = parts.split_at(3 * n as usize);
        let (backward, marks) = parts.split_at(3 * n as usize);
        let &[own_n, own_m, start, target, stretch, optimum] = header else {
            return None;
        };
        let ends = [start, target].iter().all(|end| (1..=n).contains(end));
        let optimum_known = optimum != UNKNOWN;
        if (own_n, own_m) != (n, m) || !ends || !stretch_in_range(stretch) {
            return None;
        }
        if (optimum_known && optimum > CEILING) || marks.iter().any(|&mark| mark > 1) {
            return None;
        }
        Some(Bench {
            n,
            m,
            start,
            target,
            stretch,
            optimum: optimum_known.then_some(optimum),
            forward: Half::parse(n, m, forward)?,
            backward: Half::parse(n, m, backward)?,
            marks: marks.iter().map(|&mark| mark == 1).collect(),
        })
    }

    fn words(&self) -> Vec<u32> {
        let optimum = self.optimum.unwrap_or(UNKNOWN);
        let mut words = vec![
            self.n,
            self.m,
            self.start,
            self.target,
            self.stretch,
            optimum,
        ];
        words.extend(self.forward.words());
        words.extend(self.backward.words());
        words.extend(self.marks.iter().map(|&mark| u32::from(mark)));
        words
    }

    fn half(&self, side: Side) -> &Half {
        match side {
            Side::Forward => &self.forward,
            Side::Backward => &self.backward,
        }
    }

    fn half_mut(&mut self, side: Side) -> &mut Half {
        match side {
            Side::Forward => &mut self.forward,
            Side::Backward => &mut self.backward,
        }
    }

    /// Where a half begins, and where it finds the optimum.
    fn ends(&self, side: Side) -> (u32, u32) {
        match side {
            Side::Forward => (self.start, self.target),
            Side::Backward => (self.target, self.start),
        }
    }

    /// Stretch x optimum, if the optimum is known.
    fn limit(&self) -> Option<u64> {
        let optimum = self.optimum?;
        Some(u64::from(self.stretch) * u64::from(optimum))
    }
}

// One turn

impl Bench {
    /// Rule 1: the crossing that the half takes and its distance, none if the half is done.
    fn taken(&self, side: Side) -> Option<(u32, u32)> {
        let (distance, crossing) = self.half(side).nearest()?;
        let far = 1_000 * u64::from(distance);
        let over = self.limit().is_some_and(|limit| far > limit);
        (!over).then_some((crossing, distance))
    }

    /// Rule 2.
    fn settle(&mut self, side: Side, links: &[Link], crossing: u32, distance: u32) {
        let half = self.half_mut(side);
        if let Place::Open(way) = half.at(crossing) {
            *half.at_mut(crossing) = Place::Settled(way);
        }
        for (number, link) in (1..).zip(links) {
            let link = link.driven(side);
            if link.tail == crossing {
                half.look(number, link, distance);
            }
        }
    }

    /// Rule 3.
    fn find_optimum(&mut self, side: Side, crossing: u32, distance: u32) {
        let (_, end) = self.ends(side);
        if crossing == end && self.optimum.is_none() {
            self.optimum = Some(distance);
        }
    }

    /// Rule 4 for one crossing.
    fn mark(&self, crossing: u32) -> bool {
        let from = self.forward.settled(crossing);
        let to = self.backward.settled(crossing);
        match (self.limit(), from, to) {
            (Some(limit), Some(from), Some(to)) => {
                1_000 * u64::from(from.distance + to.distance) <= limit
            }
            _ => false,
        }
    }

    fn mark_all(&mut self) {
        for crossing in 1..=self.n {
            self.marks[crossing as usize - 1] = self.mark(crossing);
        }
    }
}

pub fn open(
    map: &[u32],
    n: u32,
    m: u32,
    start: u32,
    target: u32,
    stretch: u32,
    bench: &mut [u32],
) -> Opening {
    match try_open(map, n, m, start, target, stretch, bench) {
        Ok(()) => Opening::Opened,
        Err(number) => Opening::Refused(number),
    }
}

fn try_open(
    map: &[u32],
    n: u32,
    m: u32,
    start: u32,
    target: u32,
    stretch: u32,
    bench: &mut [u32],
) -> Result<(), Number> {
    links_of(map, n, m)?;
    check_crossing(n, start)?;
    check_crossing(n, target)?;
    if !stretch_in_range(stretch) {
        return Err(5);
    }
    let words = bench.get_mut(..bench_length(n)).ok_or(3u32)?;
    words.copy_from_slice(&Bench::opened(n, m, start, target, stretch).words());
    Ok(())
}

pub fn turn(side: Side, map: &[u32], n: u32, m: u32, bench: &mut [u32]) -> Turn {
    match try_turn(side, map, n, m, bench) {
        Ok(Some((crossing, distance))) => Turn::Settled { crossing, distance },
        Ok(None) => Turn::Done,
        Err(number) => Turn::Refused(number),
    }
}

fn try_turn(
    side: Side,
    map: &[u32],
    n: u32,
    m: u32,
    bench: &mut [u32],
) -> Result<Option<(u32, u32)>, Number> {
    let links = links_of(map, n, m)?;
    let mut turned = Bench::lent(n, m, bench)?;
    let Some((crossing, distance)) = turned.taken(side) else {
        return Ok(None);
    };
    turned.settle(side, &links, crossing, distance);
    turned.find_optimum(side, crossing, distance);
    turned.mark_all();
    bench[..bench_length(n)].copy_from_slice(&turned.words());
    Ok(Some((crossing, distance)))
}

// Area and route

impl Bench {
    /// 8, 9 and 7: what the area and the route ask of a well-shaped bench.
    fn check_finished(&self, links: &[Link]) -> Result<(), Number> {
        if SIDES.iter().any(|&side| self.taken(side).is_some()) {
            return Err(8);
        }
        if self.optimum.is_none() {
            return Err(9);
        }
        if !self.is_sound(links) {
            return Err(7);
        }
        Ok(())
    }

    fn is_sound(&self, links: &[Link]) -> bool {
        let as_rule_4 = |(crossing, &mark)| mark == self.mark(crossing);
        SIDES.iter().all(|&side| self.trails_sound(side, links))
            && (1..).zip(&self.marks).all(as_rule_4)
    }

    fn trails_sound(&self, side: Side, links: &[Link]) -> bool {
        let half = self.half(side);
        let (root, _) = self.ends(side);
        (1..=self.n).all(|crossing| match half.settled(crossing) {
            Some(way) if crossing == root => way == ROOT,
            Some(way) => half.is_exact(side, links, crossing, way),
            None => crossing != root,
        })
    }

    fn is_marked(&self, crossing: u32) -> bool {
        self.marks[crossing as usize - 1]
    }

    /// Of a marked crossing on a sound bench: 1 in B only, 2 also in BL.
    fn area_byte(&self, links: &[Link], crossing: u32, locality: u32) -> u8 {
        let local = |&side: &Side| self.is_local(side, links, crossing, locality);
        if SIDES.iter().all(local) {
            2
        } else {
            1
        }
    }

    /// Condition (a) of BL for the forward half, (b) for the backward half.
    fn is_local(&self, side: Side, links: &[Link], crossing: u32, locality: u32) -> bool {
        let (own, other) = (self.half(side), self.half(side.other()));
        let (Some(here), Some(rest)) = (own.settled(crossing), other.settled(crossing)) else {
            return false;
        };
        own.trail(side, links, crossing).all(|(q, way)| {
            let d = here.distance - way.distance;
            let optimal = |over: Way| over.distance == d + rest.distance;
            d > locality || other.settled(q).is_some_and(optimal)
        })
    }

    /// Start, .., the crossing, .., target along the two trails.
    fn route(&self, links: &[Link], crossing: u32) -> Vec<u32> {
        let trail = |side| self.half(side).trail(side, links, crossing);
        let mut route: Vec<u32> = trail(Side::Forward).map(|(q, _)| q).collect();
        route.reverse();
        route.extend(trail(Side::Backward).skip(1).map(|(q, _)| q));
        route
    }
}

impl Half {
    /// Whether a settled crossing names a link into it from a settled one at the distance due.
    fn is_exact(&self, side: Side, links: &[Link], crossing: u32, way: Way) -> bool {
        let named = way.link.checked_sub(1).map(|i| links[i as usize]);
        named.map(|link| link.driven(side)).is_some_and(|link| {
            let due = |tail: Way| tail.distance + link.cost == way.distance;
            link.head == crossing && self.settled(link.tail).is_some_and(due)
        })
    }
}

pub fn area(map: &[u32], n: u32, m: u32, bench: &[u32], locality: u32, mask: &mut [u8]) -> Filling {
    match try_area(map, n, m, bench, locality, mask) {
        Ok(()) => Filling::Area,
        Err(number) => Filling::Refused(number),
    }
}

fn try_area(
    map: &[u32],
    n: u32,
    m: u32,
    bench: &[u32],
    locality: u32,
    mask: &mut [u8],
) -> Result<(), Number> {
    let links = links_of(map, n, m)?;
    if locality > CEILING {
        return Err(5);
    }
    let bench = Bench::lent(n, m, bench)?;
    let part = mask.get_mut(..n as usize).ok_or(3u32)?;
    bench.check_finished(&links)?;
    for (crossing, byte) in (1..).zip(part) {
        *byte = if bench.is_marked(crossing) {
            bench.area_byte(&links, crossing, locality)
        } else {
            0
        };
    }
    Ok(())
}

pub fn route(
    map: &[u32],
    n: u32,
    m: u32,
    bench: &[u32],
    crossing: u32,
    buffer: &mut [u32],
) -> Routing {
    match try_route(map, n, m, bench, crossing, buffer) {
        Ok(length) => Routing::Route { length },
        Err(number) => Routing::Refused(number),
    }
}

fn try_route(
    map: &[u32],
    n: u32,
    m: u32,
    bench: &[u32],
    crossing: u32,
    buffer: &mut [u32],
) -> Result<u32, Number> {
    let links = links_of(map, n, m)?;
    check_crossing(n, crossing)?;
    let bench = Bench::lent(n, m, bench)?;
    bench.check_finished(&links)?;
    if !bench.is_marked(crossing) {
        return Err(10);
    }
    let route = bench.route(&links, crossing);
    let part = buffer.get_mut(..route.len()).ok_or(3u32)?;
    part.copy_from_slice(&route);
    Ok(route.len() as u32)
}

// The text

/// A number by the text's rule.
fn number(field: &[u8]) -> Option<u32> {
    let leading_zero = field.len() > 1 && field[0] == b'0';
    if field.is_empty() || field.len() > 10 || leading_zero {
        return None;
    }
    let mut value = 0u64;
    for byte in field {
        if !byte.is_ascii_digit() {
            return None;
        }
        value = 10 * value + u64::from(byte - b'0');
    }
    value.try_into().ok()
}

enum Line {
    C,
    P { n: u32, m: u32 },
    A { u: u32, v: u32, w: u32 },
}

/// What a line says, its LF included.
fn line_of(bytes: &[u8]) -> Option<Line> {
    let line = bytes.strip_suffix(b"\n")?;
    let fields: Vec<&[u8]> = line.split(|&byte| byte == b' ').collect();
    match fields[..] {
        [b"c", ..] => Some(Line::C),
        [b"p", b"sp", n, m] => Some(Line::P {
            n: number(n)?,
            m: number(m)?,
        }),
        [b"a", u, v, w] => Some(Line::A {
            u: number(u)?,
            v: number(v)?,
            w: number(w)?,
        }),
        _ => None,
    }
}

/// What the lines so far have given: n and m of the `p` line, and the links.
#[derive(Default)]
struct Draft {
    counts: Option<(u32, u32)>,
    links: Vec<Link>,
}

impl Draft {
    /// One more line, for a map slice with this much room: 1, 2, 3, 4 for U then V, 5.
    fn take(&mut self, line: &[u8], room: usize) -> Result<(), Number> {
        match (line_of(line).ok_or(1u32)?, self.counts) {
            (Line::C, _) => {}
            (Line::P { n, m }, None) => {
                check_counts(n, m)?;
                if room < 3 * m as usize {
                    return Err(3);
                }
                self.counts = Some((n, m));
            }
            (Line::A { u, v, w }, Some((n, m))) if self.links.len() < m as usize => {
                self.links.push(Link::new(n, u, v, w)?);
            }
            _ => return Err(1),
        }
        Ok(())
    }

    /// n and m, if all lines are there.
    fn whole(&self) -> Option<(u32, u32)> {
        self.counts.filter(|&(_, m)| self.links.len() == m as usize)
    }
}

pub fn read(text: &[u8], map: &mut [u32]) -> Reading {
    match try_read(text, map) {
        Ok((n, m)) => Reading::Read { n, m },
        Err((number, line)) => Reading::Refused { number, line },
    }
}

fn try_read(text: &[u8], map: &mut [u32]) -> Result<(u32, u32), (Number, u32)> {
    if text.len() > MOST_TEXT {
        return Err((2, 0));
    }
    let mut draft = Draft::default();
    let mut next = 1;
    for line in text.split_inclusive(|&byte| byte == b'\n') {
        draft
            .take(line, map.len())
            .map_err(|number| (number, next))?;
        next += 1;
    }
    let counts = draft.whole().ok_or((1, next))?;
    for (words, link) in map.chunks_exact_mut(3).zip(&draft.links) {
        words.copy_from_slice(&[link.tail, link.head, link.cost]);
    }
    Ok(counts)
}

// The program

/// The program's output for its arguments and the text on standard input.
pub fn booklet(arguments: &[Vec<u8>], text: &[u8]) -> Vec<u8> {
    let output = match try_booklet(arguments, text) {
        Ok(output) => output,
        Err((number, line)) => format!("r {number} {line}\n"),
    };
    output.into_bytes()
}

fn try_booklet(arguments: &[Vec<u8>], text: &[u8]) -> Result<String, (Number, u32)> {
    let numbers: Option<Vec<u32>> = arguments.iter().map(|field| number(field)).collect();
    let Some(&[start, target, stretch, locality]) = numbers.as_deref() else {
        return Err((1, 0));
    };
    if text.len() > PROGRAM_TEXT {
        return Err((2, 0));
    }
    let mut map = vec![0; PROGRAM_MAP];
    let (n, m) = try_read(text, &mut map)?;
    let outside = |number| (number, 0);
    let mut bench = vec![0; bench_length(PROGRAM_CROSSINGS)];
    try_open(&map, n, m, start, target, stretch, &mut bench).map_err(outside)?;
    loop {
        let forward = try_turn(Side::Forward, &map, n, m, &mut bench).map_err(outside)?;
        let backward = try_turn(Side::Backward, &map, n, m, &mut bench).map_err(outside)?;
        if forward.is_none() && backward.is_none() {
            break;
        }
    }
    let mut mask = vec![0; PROGRAM_CROSSINGS as usize];
    try_area(&map, n, m, &bench, locality, &mut mask).map_err(outside)?;
    let bench = Bench::lent(n, m, &bench).map_err(outside)?;
    Ok(bench.printed(&mask))
}

impl Bench {
    fn printed(&self, mask: &[u8]) -> String {
        let optimum = self.optimum.unwrap_or(UNKNOWN);
        let mut output = format!("o {optimum}\n");
        for (crossing, byte) in (1..=self.n).zip(mask) {
            let ways = (
                self.forward.settled(crossing),
                self.backward.settled(crossing),
            );
            if let (1 | 2, (Some(from), Some(to))) = (byte, ways) {
                let letter = if *byte == 2 { 'l' } else { 'b' };
                let sum = from.distance + to.distance;
                output += &format!("{letter} {crossing} {sum}\n");
            }
        }
        output
    }
}
