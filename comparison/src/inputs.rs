//! The inputs of the comparison, all from fixed seeds: maps, benches, texts and single calls with every
//! argument and every lent length in and out of its range.

use crate::paper::*;
use crate::theory::{marks, Map, Order, Theory};

/// What lent memory holds before a call that fills it.
const OLD_WORD: u32 = 7_007_007;
const OLD_BYTE: u8 = 77;

/// Xorshift of 64 bits.
pub struct Random(u64);

impl Random {
    pub fn new(seed: u64) -> Random {
        // Spreads the small seeds; xorshift must not begin at 0.
        Random((seed + 1).wrapping_mul(0x9E37_79B9_7F4A_7C15))
    }

    fn word(&mut self) -> u32 {
        self.0 ^= self.0 << 13;
        self.0 ^= self.0 >> 7;
        self.0 ^= self.0 << 17;
        (self.0 >> 32) as u32
    }

    pub fn up_to(&mut self, most: u32) -> u32 {
        ((u64::from(self.word()) * (u64::from(most) + 1)) >> 32) as u32
    }

    pub fn between(&mut self, least: u32, most: u32) -> u32 {
        least + self.up_to(most - least)
    }

    pub fn one_in(&mut self, times: u32) -> bool {
        self.up_to(times - 1) == 0
    }

    pub fn pick<T: Copy>(&mut self, of: &[T]) -> T {
        of[self.up_to(of.len() as u32 - 1) as usize]
    }
}

// Single calls

#[derive(Clone, Copy, Debug, PartialEq, Eq, PartialOrd, Ord)]
pub enum Call {
    Read,
    Open,
    Turn(Side),
    Area,
    Route,
}

/// One call: its numbers and the memory lent to it. What the call doesn't take stays empty.
#[derive(Clone)]
pub struct Input {
    pub call: Call,
    pub n: u32,
    pub m: u32,
    pub order: Order,
    pub locality: u32,
    pub crossing: u32,
    pub text: Vec<u8>,
    pub map: Vec<u32>,
    pub bench: Vec<u32>,
    pub mask: Vec<u8>,
    pub route: Vec<u32>,
}

impl Input {
    fn new(call: Call) -> Input {
        Input {
            call,
            n: 0,
            m: 0,
            order: Order::new(0, 0, 0),
            locality: 0,
            crossing: 0,
            text: Vec::new(),
            map: Vec::new(),
            bench: Vec::new(),
            mask: Vec::new(),
            route: Vec::new(),
        }
    }

    fn on(call: Call, map: &Map, bench: Vec<u32>) -> Input {
        Input {
            n: map.n,
            m: map.m(),
            map: map.words.clone(),
            bench,
            ..Input::new(call)
        }
    }

    pub fn read(text: &[u8], room: usize) -> Input {
        Input {
            text: text.to_vec(),
            map: vec![OLD_WORD; room],
            ..Input::new(Call::Read)
        }
    }

    pub fn open(map: &Map, order: Order) -> Input {
        let bench = vec![OLD_WORD; bench_length(map.n)];
        Input {
            order,
            ..Input::on(Call::Open, map, bench)
        }
    }

    pub fn turn(side: Side, map: &Map, bench: &[u32]) -> Input {
        Input::on(Call::Turn(side), map, bench.to_vec())
    }

    pub fn area(map: &Map, bench: &[u32], locality: u32) -> Input {
        Input {
            locality,
            mask: vec![OLD_BYTE; map.n as usize],
            ..Input::on(Call::Area, map, bench.to_vec())
        }
    }

    pub fn route(map: &Map, bench: &[u32], crossing: u32, room: usize) -> Input {
        Input {
            crossing,
            route: vec![OLD_WORD; room],
            ..Input::on(Call::Route, map, bench.to_vec())
        }
    }

    /// Words and bytes lent, to tell small inputs from large ones.
    pub fn size(&self) -> usize {
        self.text.len() + self.map.len() + self.bench.len() + self.mask.len() + self.route.len()
    }
}

/// One thing set to another value: how, at which place, to what.
#[derive(Clone, Copy)]
struct Change(fn(&mut Input, usize, u32), usize, u32);

impl Change {
    fn make(self, input: &mut Input) {
        let Change(set, place, value) = self;
        set(input, place, value);
    }
}

fn set_map_word(input: &mut Input, place: usize, value: u32) {
    if let Some(word) = input.map.get_mut(place) {
        *word = value;
    }
}

fn set_bench_word(input: &mut Input, place: usize, value: u32) {
    if let Some(word) = input.bench.get_mut(place) {
        *word = value;
    }
}

fn set_map_length(input: &mut Input, _: usize, value: u32) {
    input.map.resize(value as usize, OLD_WORD);
}

fn set_bench_length(input: &mut Input, _: usize, value: u32) {
    input.bench.resize(value as usize, OLD_WORD);
}

fn set_mask_length(input: &mut Input, _: usize, value: u32) {
    input.mask.resize(value as usize, OLD_BYTE);
}

fn set_route_length(input: &mut Input, _: usize, value: u32) {
    input.route.resize(value as usize, OLD_WORD);
}

/// Crossings in and out of 1 to 5, and at the edges of every map.
const ENDS: &[u32] = &[0, 1, 5, 6, 4_096, 4_097, u32::MAX];

/// The changes to a call on the five crossings: n is 5, m is 7, the bench has 41 words.
#[derive(Default)]
struct Changes(Vec<Change>);

impl Changes {
    fn of(call: Call) -> Vec<Change> {
        let mut changes = Changes::default();
        changes.add_map();
        changes.add(set_bench_length, 0, &[0, 5, 40, 42, 48, 60]);
        changes.add_own(call);
        if call != Call::Open {
            changes.add_head();
            changes.add_parts();
        }
        changes.0
    }

    fn add(&mut self, set: fn(&mut Input, usize, u32), place: usize, values: &[u32]) {
        self.0
            .extend(values.iter().map(|&value| Change(set, place, value)));
    }

    fn add_map(&mut self) {
        let counts = [0, 1, 4, 6, 4_096, 4_097, u32::MAX];
        self.add(|input, _, n| input.n = n, 0, &counts);
        let counts = [0, 1, 6, 8, 16_384, 16_385, u32::MAX];
        self.add(|input, _, m| input.m = m, 0, &counts);
        self.add(set_map_length, 0, &[0, 1, 18, 20, 22, 24]);
        for link in [0, 2, 6] {
            self.add(set_map_word, 3 * link, &[0, 5, 6, u32::MAX]);
            self.add(set_map_word, 3 * link + 1, &[0, 5, 6, u32::MAX]);
            self.add(set_map_word, 3 * link + 2, &[0, 1, 65_535, 65_536]);
        }
    }

    /// What the call takes beside map and bench.
    fn add_own(&mut self, call: Call) {
        match call {
            Call::Open => {
                let stretches = [0, 999, 1_000, 4_000, 4_001, u32::MAX];
                self.add(|input, _, start| input.order.start = start, 0, ENDS);
                self.add(|input, _, target| input.order.target = target, 0, ENDS);
                self.add(|input, _, value| input.order.stretch = value, 0, &stretches);
            }
            Call::Area => {
                let localities = [0, 1, 4, CEILING, CEILING + 1, u32::MAX];
                self.add(|input, _, value| input.locality = value, 0, &localities);
                self.add(set_mask_length, 0, &[0, 4, 6, 9]);
            }
            Call::Route => {
                self.add(|input, _, crossing| input.crossing = crossing, 0, ENDS);
                self.add(set_route_length, 0, &[0, 1, 2, 3, 4, 5, 6]);
            }
            Call::Turn(_) | Call::Read => {}
        }
    }

    /// Words 0 to 5 of the bench.
    fn add_head(&mut self) {
        self.add(set_bench_word, 0, &[0, 4, 6, 4_097, u32::MAX]);
        self.add(set_bench_word, 1, &[0, 6, 8, 16_385, u32::MAX]);
        self.add(set_bench_word, 2, ENDS);
        self.add(set_bench_word, 3, ENDS);
        self.add(set_bench_word, 4, &[0, 999, 1_000, 1_199, 4_000, 4_001]);
        let optima = [0, 9, 10, 11, CEILING, CEILING + 1, UNKNOWN - 1, UNKNOWN];
        self.add(set_bench_word, 5, &optima);
    }

    /// The halves and the marks of the bench.
    fn add_parts(&mut self) {
        for half in [6, 21] {
            for crossing in [0, 3, 4] {
                let distances = [0, 5, 13, CEILING - 6, CEILING, CEILING + 1, UNKNOWN];
                self.add(set_bench_word, half + crossing, &distances);
                self.add(set_bench_word, half + 5 + crossing, &[0, 1, 6, 7, 8]);
                self.add(set_bench_word, half + 10 + crossing, &[0, 1, 2, 3]);
            }
        }
        for mark in [36, 39, 40] {
            self.add(set_bench_word, mark, &[0, 1, 2, u32::MAX]);
        }
    }
}

/// The input with each change and each two changes, so that every order of two refusals is met.
pub fn changed(base: Input) -> impl Iterator<Item = Input> {
    let changes = Changes::of(base.call);
    let count = changes.len();
    let pairs = (0..count).flat_map(move |first| (first..count).map(move |second| (first, second)));
    pairs.map(move |(first, second)| {
        let mut input = base.clone();
        changes[first].make(&mut input);
        changes[second].make(&mut input);
        input
    })
}

/// Calls on the five crossings to be changed: with all settled, some open, and no route.
pub fn bases() -> Vec<Input> {
    let (map, cut) = (five_crossings(), five_crossings_cut());
    let all = Theory::new(&map, Order::new(1, 5, 1_200)).finished();
    let some = Theory::new(&map, Order::new(1, 5, 1_100)).finished();
    let begun = Theory::new(&map, Order::new(1, 5, 1_200)).bench(2, 1);
    let none = Theory::new(&cut, Order::new(5, 1, 1_200)).finished();
    vec![
        Input::open(&map, Order::new(1, 5, 1_200)),
        Input::turn(Side::Forward, &map, &begun),
        Input::turn(Side::Backward, &map, &begun),
        Input::turn(Side::Forward, &map, &some),
        Input::area(&map, &all, 1),
        Input::area(&map, &some, 5),
        Input::area(&cut, &none, 0),
        Input::route(&map, &all, 4, 5),
        Input::route(&map, &some, 3, 3),
        Input::route(&cut, &none, 1, 3),
    ]
}

// Maps and orders

pub fn five_crossings() -> Map {
    Map {
        n: 5,
        words: vec![
            1, 2, 4, 2, 5, 6, 1, 3, 5, 3, 5, 6, 2, 4, 1, 4, 2, 1, 5, 1, 9,
        ],
    }
}

/// The five crossings without the last link: no way leads from 5.
pub fn five_crossings_cut() -> Map {
    let mut map = five_crossings();
    map.words.truncate(18);
    map
}

/// The orders that document 01 checks by.
pub fn five_orders() -> Vec<(Map, Order)> {
    let whole = |start, target, stretch| (five_crossings(), Order::new(start, target, stretch));
    vec![
        whole(1, 5, 1_099),
        whole(1, 5, 1_100),
        whole(1, 5, 1_199),
        whole(1, 5, 1_200),
        whole(3, 3, 4_000),
        (five_crossings_cut(), Order::new(5, 1, 1_200)),
    ]
}

/// A random map with ties, self-links, parallel links and parts that can't be reached.
pub fn map(random: &mut Random, n: u32) -> Map {
    let m = random.up_to(4 * n);
    let most_cost = random.pick(&[1, 2, 3, 9, 100, MOST_COST]);
    let least_cost = random.pick(&[1, 1, most_cost]);
    // Links keep to one side of this crossing: two islands, or one if it is n.
    let shore = random.pick(&[n, n, n.div_ceil(2)]);
    let mut words = Vec::new();
    for _ in 0..m {
        let tail = random.between(1, n);
        let (first, last) = if tail <= shore {
            (1, shore)
        } else {
            (shore + 1, n)
        };
        let head = random.between(first, last);
        words.extend([tail, head, random.between(least_cost, most_cost)]);
        if random.one_in(6) {
            words.extend([tail, head, random.between(least_cost, most_cost)]);
        }
    }
    Map { n, words }
}

pub fn order(random: &mut Random, map: &Map) -> Order {
    let (start, target) = (random.between(1, map.n), random.between(1, map.n));
    let (any, low) = (random.between(1_000, 4_000), random.between(1_000, 1_700));
    let stretches = [1_000, 1_001, 1_250, 1_500, 2_000, 3_999, 4_000, any, low];
    Order::new(start, target, random.pick(&stretches))
}

/// Rows and columns with a link each way between neighbours, the links in a random order.
fn grid(random: &mut Random, width: u32, height: u32, most_cost: u32) -> Map {
    let at = |column, row| row * width + column + 1;
    let mut links = Vec::new();
    for row in 0..height {
        for column in 0..width {
            let here = at(column, row);
            if column + 1 < width {
                links.push((here, at(column + 1, row)));
            }
            if row + 1 < height {
                links.push((here, at(column, row + 1)));
            }
        }
    }
    let back: Vec<_> = links.iter().map(|&(tail, head)| (head, tail)).collect();
    links.extend(back);
    shuffled_map(random, width * height, links, most_cost)
}

/// One way from 1 to n, every cost the highest: with 4,096 crossings its end lies at the ceiling.
fn chain(random: &mut Random, n: u32) -> Map {
    let links = (1..n).map(|tail| (tail, tail + 1)).collect();
    let mut map = shuffled_map(random, n, links, 1);
    for link in map.words.chunks_exact_mut(3) {
        link[2] = MOST_COST;
    }
    map
}

fn shuffled_map(random: &mut Random, n: u32, mut links: Vec<(u32, u32)>, most_cost: u32) -> Map {
    for last in (1..links.len()).rev() {
        links.swap(last, random.up_to(last as u32) as usize);
    }
    let words = links
        .iter()
        .flat_map(|&(tail, head)| [tail, head, random.between(1, most_cost)])
        .collect();
    Map { n, words }
}

/// Adds random links, self-links among them, up to m.
fn filled_up(random: &mut Random, mut map: Map, m: u32, most_cost: u32) -> Map {
    while map.m() < m {
        let (tail, head) = (random.between(1, map.n), random.between(1, map.n));
        let cost = random.between(1, most_cost);
        map.words.extend([tail, head, cost]);
    }
    map
}

/// Maps of the largest size with an order each.
pub fn large(random: &mut Random) -> Vec<(Map, Order)> {
    let ties = grid(random, 64, 64, 1);
    let ties = filled_up(random, ties, MOST_LINKS, 3);
    let hills = grid(random, 64, 64, MOST_COST);
    let long = chain(random, MOST_CROSSINGS);
    let far = filled_up(random, long.clone(), MOST_LINKS / 3, MOST_COST);
    let bare = Map {
        n: MOST_CROSSINGS,
        words: Vec::new(),
    };
    let wild = filled_up(random, bare, MOST_LINKS, 1_000);
    vec![
        (ties, Order::new(1, 4_096, 1_000)),
        (long, Order::new(1, 4_096, 4_000)),
        (hills, Order::new(2_080, 700, 1_500)),
        (far, Order::new(9, 4_000, 1_100)),
        (wild, Order::new(17, 4_096, 2_000)),
    ]
}

// Benches

/// A distance up to the ceiling; a high one is where some link's cost just meets or passes the ceiling.
fn distance(random: &mut Random, map: &Map, high: bool) -> u32 {
    if high && map.m() > 0 {
        let link = random.up_to(map.m() - 1) as usize;
        CEILING - map.words[3 * link + 2] + random.up_to(1)
    } else if random.one_in(4) {
        random.up_to(CEILING)
    } else {
        random.up_to(12)
    }
}

/// A link number up to m, often 0.
fn link_number(random: &mut Random, map: &Map) -> u32 {
    if random.one_in(3) {
        0
    } else {
        random.up_to(map.m())
    }
}

fn half_words(places: &[[u32; 3]]) -> Vec<u32> {
    (0..3)
        .flat_map(|part| places.iter().map(move |place| place[part]))
        .collect()
}

fn bench_words(map: &Map, order: Order, optimum: u32, parts: [&[u32]; 3]) -> Vec<u32> {
    let header = [
        map.n,
        map.m(),
        order.start,
        order.target,
        order.stretch,
        optimum,
    ];
    [&header, parts[0], parts[1], parts[2]].concat()
}

/// A well-shaped bench of otherwise random words.
pub fn shaped_bench(random: &mut Random, map: &Map, order: Order) -> Vec<u32> {
    let states = random.pick(&[&[0, 1, 2][..], &[0, 2], &[1, 2], &[2]]);
    let high = random.one_in(3);
    let [forward, backward] = SIDES.map(|_| {
        let mut places = vec![[UNKNOWN, 0, 0]; map.n as usize];
        for place in &mut places {
            let state = random.pick(states);
            if state > 0 {
                *place = [distance(random, map, high), link_number(random, map), state];
            }
        }
        half_words(&places)
    });
    let optimum = if random.one_in(3) {
        UNKNOWN
    } else {
        distance(random, map, high)
    };
    let marks: Vec<u32> = (0..map.n).map(|_| random.up_to(1)).collect();
    bench_words(map, order, optimum, [&forward, &backward, &marks])
}

/// A half whose settled crossings are a random tree of real links, at the distances due. Open ones mostly
/// lie so far away that the half is done.
fn tree(random: &mut Random, map: &Map, side: Side, root: u32) -> Vec<u32> {
    let mut places = vec![[UNKNOWN, 0, 0]; map.n as usize];
    places[root as usize - 1] = [0, 0, 2];
    let links: Vec<_> = map.links(side).collect();
    for _ in 0..4 * links.len() {
        let (number, tail, head, cost) = random.pick(&links);
        let [before, _, tail_state] = places[tail as usize - 1];
        let place = &mut places[head as usize - 1];
        if tail_state == 2 && place[2] == 0 {
            *place = [before + cost, number, 2];
        }
    }
    let high = !random.one_in(4);
    for place in &mut places {
        if place[2] == 0 && random.one_in(3) {
            *place = [distance(random, map, high), link_number(random, map), 1];
        }
    }
    half_words(&places)
}

/// A bench that is sound but mostly false: random trees, any optimum, marks by rule 4.
pub fn sound_bench(random: &mut Random, map: &Map, order: Order) -> Vec<u32> {
    let forward = tree(random, map, Side::Forward, order.start);
    let backward = tree(random, map, Side::Backward, order.target);
    let place = random.up_to(map.n - 1) as usize;
    let sum = forward[place].saturating_add(backward[place]);
    let target = forward[order.target as usize - 1];
    let small = random.up_to(50);
    let optimum = match random.pick(&[sum, sum / 2, target, small]) {
        optimum if optimum <= CEILING => optimum,
        _ => UNKNOWN,
    };
    let marks = marks(&forward, &backward, order.stretch, optimum);
    bench_words(map, order, optimum, [&forward, &backward, &marks])
}

/// Some words of the bench set to values that are at the edge of what a word may hold.
pub fn damage(random: &mut Random, map: &Map, bench: &mut [u32]) {
    for _ in 0..random.between(1, 3) {
        let place = random.up_to(bench.len() as u32 - 1) as usize;
        let old = bench[place];
        let other = random.pick(bench);
        bench[place] = random.pick(&[
            0,
            1,
            2,
            3,
            map.n,
            map.n + 1,
            map.m(),
            map.m() + 1,
            old.wrapping_add(1),
            old.wrapping_sub(1),
            other,
            CEILING,
            CEILING + 1,
            UNKNOWN - 1,
            UNKNOWN,
        ]);
    }
}

/// A few of the input's numbers and lent lengths changed at random.
pub fn disturb(random: &mut Random, input: &mut Input) {
    let n = input.n;
    let odd_numbers = [
        0,
        1,
        n,
        n.wrapping_add(1),
        4_097,
        16_385,
        CEILING,
        CEILING + 1,
        u32::MAX,
    ];
    let odd = random.pick(&odd_numbers);
    match random.up_to(11) {
        0 => input.n = odd,
        1 => input.m = odd,
        2 => input.order.start = odd,
        3 => input.order.target = odd,
        4 => input.order.stretch = random.pick(&[0, 999, 1_000, 4_000, 4_001, odd]),
        5 => input.locality = odd,
        6 => input.crossing = odd,
        7 => resize(random, &mut input.map, OLD_WORD),
        8 => resize(random, &mut input.bench, OLD_WORD),
        9 => resize(random, &mut input.mask, OLD_BYTE),
        10 => resize(random, &mut input.route, OLD_WORD),
        _ => {
            let place = random.up_to(input.map.len() as u32) as usize;
            set_map_word(input, place, random.pick(&[odd, 65_535, 65_536]));
        }
    }
}

/// One too short, or longer.
fn resize<T: Copy>(random: &mut Random, slice: &mut Vec<T>, old: T) {
    let length = slice.len();
    slice.resize(
        random.pick(&[length.saturating_sub(1), length + 1, length + 9]),
        old,
    );
}

// Texts

pub const FIVE_TEXT: &[u8] = b"c five crossings
p sp 5 7
a 1 2 4
a 2 5 6
a 1 3 5
a 3 5 6
a 2 4 1
a 4 2 1
a 5 1 9
";

pub fn text(map: &Map) -> Vec<u8> {
    let mut text = format!("p sp {} {}\n", map.n, map.m());
    for link in map.words.chunks_exact(3) {
        text += &format!("a {} {} {}\n", link[0], link[1], link[2]);
    }
    text.into_bytes()
}

/// The text with comments between its lines.
pub fn with_comments(random: &mut Random, text: &[u8]) -> Vec<u8> {
    let comments: [&[u8]; 5] = [b"", b"c\n", b"c \n", b"c p sp 1 0\r\n", b"c \0\xff a\n"];
    let mut commented = Vec::new();
    for line in text.split_inclusive(|&byte| byte == b'\n') {
        commented.extend(random.pick(&comments));
        commented.extend(line);
    }
    commented.extend(random.pick(&comments));
    commented
}

/// Bytes to put in the place of others.
const DAMAGE: &[u8] = b" \n\r\t\x000159acps-+\xff";

/// The text with each byte in turn replaced, removed or doubled, and cut off before it.
pub fn damaged(text: &[u8]) -> impl Iterator<Item = Vec<u8>> + '_ {
    (0..text.len()).flat_map(move |place| {
        let (before, after) = (&text[..place], &text[place + 1..]);
        let replaced = DAMAGE
            .iter()
            .map(move |&byte| [before, &[byte], after].concat());
        let doubled = [before, &text[place..=place], &text[place..]].concat();
        replaced.chain([[before, after].concat(), doubled, before.to_vec()])
    })
}

/// The text damaged at one random byte.
pub fn damaged_somewhere(random: &mut Random, text: &[u8]) -> Vec<u8> {
    let place = random.up_to(text.len() as u32 - 1) as usize;
    let (before, after) = (&text[..place], &text[place + 1..]);
    match random.up_to(3) {
        0 => [before, after].concat(),
        1 => [before, &text[place..=place], &text[place..]].concat(),
        2 => before.to_vec(),
        _ => [before, &[random.pick(DAMAGE)], after].concat(),
    }
}

/// Texts at the edges of the layout and of every range.
pub const ODD_TEXTS: &[&[u8]] = &[
    b"",
    b"\n",
    b" \n",
    b"c\n",
    b"c\nc\n",
    b"c",
    b"c five",
    b"cx\n",
    b"c\r\n",
    b"c\t\n",
    b"C x\n",
    b"c x\r\np sp 1 0\n",
    b"c \0\xff\np sp 1 0\nc\n",
    b"p sp 1 0\n",
    b"p sp 1 0",
    b"p sp 1 0\r\n",
    b"p sp 1 0\n\n",
    b"p sp 1 0\nc",
    b"p sp 0 0\n",
    b"p sp 4096 0\n",
    b"p sp 4097 0\n",
    b"p sp 4097 16385\n",
    b"p sp 1 16384\n",
    b"p sp 1 16385\n",
    b"p sp 1 4294967295\n",
    b"p sp 4294967295 0\n",
    b"p sp 4294967296 0\n",
    b"p sp 9999999999 0\n",
    b"p sp 10000000000 0\n",
    b"p sp 1 4294967296\n",
    b"p sp 00000000001 0\n",
    b"p sp 01 0\n",
    b"p sp 1 00\n",
    b"p sp +1 0\n",
    b"p sp -1 0\n",
    b"p sp 0x1 0\n",
    b"p sp 5000 x\n",
    b"p  sp 1 0\n",
    b"p sp  1 0\n",
    b" p sp 1 0\n",
    b"p sp 1 0 \n",
    b"p sp 1 0 0\n",
    b"p sp 1\n",
    b"p sp 1 \n",
    b"p sp\n",
    b"p\n",
    b"p\tsp\t1\t0\n",
    b"p max 1 0\n",
    b"P sp 1 0\n",
    b"p SP 1 0\n",
    b"p sp 1 0\np sp 1 0\n",
    b"p sp 1 1\np sp 1 1\na 1 1 1\n",
    b"p sp 1 1\na 1 1 1\np sp 1 1\n",
    b"p sp 0 0\np sp 1 0\n",
    b"a 1 1 1\n",
    b"a 1 1 1\np sp 1 1\n",
    b"a 9 9 0\np sp 1 1\n",
    b"p sp 1 0\na 1 1 1\n",
    b"p sp 1 1\n",
    b"p sp 1 1\nc\n",
    b"p sp 1 1\na 1 1 1\n",
    b"p sp 1 1\na 1 1 1",
    b"p sp 1 1\na 1 1 1\n\n",
    b"p sp 1 1\na 1 1 1\r\n",
    b"p sp 1 1\na 1 1 1\na 1 1 1\n",
    b"p sp 1 1\na 1 1 1\na 9 9 0\n",
    b"p sp 1 1\na 1 1\n",
    b"p sp 1 1\na 1 1 1 1\n",
    b"p sp 1 1\na 1 1 01\n",
    b"p sp 1 1\na 1  1 1\n",
    b"p sp 1 1\na 0 1 1\n",
    b"p sp 1 1\na 1 0 1\n",
    b"p sp 1 1\na 2 1 0\n",
    b"p sp 1 1\na 1 2 0\n",
    b"p sp 1 1\na 0 0 0\n",
    b"p sp 1 1\na 1 2 x\n",
    b"p sp 1 1\na 9 9 0",
    b"p sp 1 1\na 1 1 0\n",
    b"p sp 1 1\na 1 1 65535\n",
    b"p sp 1 1\na 1 1 65536\n",
    b"p sp 1 1\na 1 1 4294967295\n",
    b"p sp 1 1\na 1 1 4294967296\n",
    b"p sp 1 2\na 1 1 0\na 2 1 1\n",
    b"p sp 1 2\na 1 1 1\n",
    b"p sp 1 2\na 1 1 1\na 1 2 1\n",
    b"p sp 2 1\na 1 2 1\nc\nc \nc x\n",
];

/// The text with a comment before it that brings it to this many bytes.
fn padded(text: &[u8], length: usize) -> Vec<u8> {
    let mut padded = b"c ".to_vec();
    padded.resize(length - text.len() - 1, b'x');
    padded.push(b'\n');
    padded.extend(text);
    padded
}

/// Texts at the limits of length, and of the largest counts.
pub fn long_texts() -> Vec<Vec<u8>> {
    let full = |m: usize| {
        let mut text = format!("p sp 4096 {m}\n");
        text += &"a 4096 4096 65535\n".repeat(m);
        text.into_bytes()
    };
    let many_lines = b"c\n".repeat(MOST_TEXT / 2);
    let mut one_line_more = many_lines.clone();
    one_line_more.push(b'\n');
    let mut beyond = full(16_384);
    beyond.extend(b"a 1 1 1\n");
    vec![
        padded(FIVE_TEXT, MOST_TEXT),
        padded(FIVE_TEXT, MOST_TEXT + 1),
        padded(b"x\n", MOST_TEXT),
        padded(b"x\n", MOST_TEXT + 1),
        many_lines,
        one_line_more,
        full(16_384),
        full(16_385),
        beyond,
    ]
}

// The program

/// Arguments and text of one run.
pub type Run = (Vec<Vec<u8>>, Vec<u8>);

fn arguments(words: &[&str]) -> Vec<Vec<u8>> {
    words.iter().map(|word| word.as_bytes().to_vec()).collect()
}

/// Orders on the five crossings, in and out of every range.
const ORDERS: &[[&str; 4]] = &[
    ["1", "5", "1200", "1"],
    ["1", "5", "1200", "0"],
    ["5", "1", "1200", "0"],
    ["1", "5", "1200", "5"],
    ["1", "5", "1099", "5"],
    ["1", "5", "1100", "0"],
    ["1", "5", "1199", "268365825"],
    ["1", "5", "1200", "268365826"],
    ["1", "5", "1200", "4294967295"],
    ["1", "5", "999", "0"],
    ["1", "5", "1000", "0"],
    ["1", "5", "4000", "0"],
    ["1", "5", "4001", "0"],
    ["3", "3", "4000", "0"],
    ["0", "5", "1200", "0"],
    ["6", "5", "1200", "0"],
    ["1", "0", "1200", "0"],
    ["1", "6", "1200", "0"],
    ["1", "6", "999", "268365826"],
    ["4294967295", "5", "1200", "0"],
];

/// Arguments that are not four numbers.
const BAD_ARGUMENTS: &[&[&str]] = &[
    &["4294967296", "5", "1200", "0"],
    &["10000000000", "5", "1200", "0"],
    &["01", "5", "1200", "0"],
    &["1", "05", "1200", "0"],
    &["1", "5", "01200", "0"],
    &["1", "5", "1200", "00"],
    &["+1", "5", "1200", "0"],
    &["-1", "5", "1200", "0"],
    &["1 ", "5", "1200", "0"],
    &[" 1", "5", "1200", "0"],
    &["1\n", "5", "1200", "0"],
    &["1", "5\u{e9}", "1200", "0"],
    &["", "5", "1200", "0"],
    &["1", "5", "1200", ""],
    &["1", "5", "1,200", "0"],
    &["1", "5", "1200", "x"],
    &["1", "5", "1200"],
    &["1", "5", "1200", "0", "0"],
    &["1", "5", "1200", "0", ""],
    &["1 5 1200 0"],
    &[],
];

/// Runs on the five crossings with every kind of argument, on odd texts, and on texts at the limit of length.
pub fn runs() -> Vec<Run> {
    let order = |row: &[&str; 4]| arguments(row);
    let five = |row| (order(row), FIVE_TEXT.to_vec());
    let mut runs: Vec<Run> = ORDERS.iter().map(five).collect();
    let cut = text(&five_crossings_cut());
    runs.extend(ORDERS[..3].iter().map(|row| (order(row), cut.clone())));
    // Arguments come before the text: this one would be refused at its line 1.
    let unfinished = b"p sp 5 7".to_vec();
    let bad = |row: &&[&str]| (arguments(row), unfinished.clone());
    runs.extend(BAD_ARGUMENTS.iter().map(bad));
    runs.push((order(&ORDERS[0]), unfinished.clone()));
    let one = arguments(&["1", "1", "1000", "0"]);
    let odd = |text: &&[u8]| (one.clone(), text.to_vec());
    runs.extend(ODD_TEXTS.iter().map(odd));
    for more in [0, 1, 2, MOST_TEXT] {
        let length = PROGRAM_TEXT - 1 + more;
        runs.push((order(&ORDERS[0]), padded(FIVE_TEXT, length)));
        runs.push((one.clone(), padded(b"x\n", length)));
        runs.push((arguments(&["x"]), padded(FIVE_TEXT, length)));
    }
    runs
}

/// Runs at the program's limits of crossings and links, and past them.
pub fn long_runs(random: &mut Random) -> Vec<Run> {
    let mut runs = Vec::new();
    for (width, height, m) in [(32, 32, 4_096), (32, 32, 4_097), (25, 41, 4_000)] {
        let map = grid(random, width, height, 1);
        let mut text = b"c one line before the `p` line\n".to_vec();
        text.extend(self::text(&filled_up(random, map, m, 9)));
        runs.push((arguments(&["1", "1024", "1500", "3"]), text.clone()));
        runs.push((arguments(&["1024", "7", "1000", "268365825"]), text));
    }
    runs
}
