//! The inputs in the order in which they are compared: the fixed ones first, the small before the large, so
//! that a difference shows on a small input and the time bounds the random ones alone.

use crate::comparison::Comparison;
use crate::inputs::{self, Input, Random, Run};
use crate::paper::*;
use crate::theory::{Map, Order, Theory};

/// Seed of the inputs that are random but belong to no round.
const SEED: u64 = 1_000_000;

/// Inputs of one kind.
pub type Stage = fn(&mut Comparison);

/// A whole run.
pub const ALL: &[Stage] = &[
    Comparison::texts,
    Comparison::five_crossings,
    Comparison::changes,
    Comparison::programs,
    Comparison::long_texts,
    Comparison::large,
    Comparison::long_programs,
    |comparison| comparison.rounds(20),
];

impl Comparison {
    /// These stages, until something differs.
    pub fn run(&mut self, stages: &[Stage]) {
        for stage in stages {
            if !self.differs() {
                stage(self);
            }
        }
    }

    pub fn texts(&mut self) {
        for text in inputs::ODD_TEXTS {
            for room in [0, 2, 3, 4, 6, 9] {
                self.compare(&Input::read(text, room));
            }
        }
        for text in inputs::damaged(inputs::FIVE_TEXT) {
            for room in [20, 21, 30] {
                self.compare(&Input::read(&text, room));
            }
        }
    }

    /// Every order of turns on the five crossings.
    pub fn five_crossings(&mut self) {
        for (map, order) in inputs::five_orders() {
            self.all_schedules(&map, order);
        }
    }

    pub fn changes(&mut self) {
        for base in inputs::bases() {
            if self.differs() {
                return;
            }
            self.compare(&base);
            for input in inputs::changed(base) {
                self.compare(&input);
            }
        }
    }

    pub fn programs(&mut self) {
        self.compare_programs(inputs::runs());
    }

    fn long_programs(&mut self) {
        self.compare_programs(inputs::long_runs(&mut Random::new(SEED)));
    }

    fn compare_programs(&mut self, runs: Vec<Run>) {
        for (arguments, text) in runs {
            if self.differs() {
                return;
            }
            self.compare_program(&arguments, &text);
        }
    }

    /// Random inputs, a seed for each round: at least so many rounds, and then until the time is over.
    pub fn rounds(&mut self, least: u64) {
        for round in 0.. {
            if self.differs() || (round >= least && self.is_late()) {
                return;
            }
            self.round(&mut Random::new(round));
        }
    }

    fn round(&mut self, random: &mut Random) {
        let n = random.between(1, 6);
        let map = inputs::map(random, n);
        let order = inputs::order(random, &map);
        self.all_schedules(&map, order);
        for n in [random.between(1, 9), random.between(7, 40)] {
            let map = inputs::map(random, n);
            let order = inputs::order(random, &map);
            self.random_schedule(random, &map, order);
            self.benches(random, &map, order);
            self.random_texts(random, &map, order);
        }
    }

    /// Benches that no turns lead to, each with every call.
    fn benches(&mut self, random: &mut Random, map: &Map, order: Order) {
        let theory = Theory::new(map, order);
        let [forward, backward] = SIDES.map(|side| theory.settles(side) as u32);
        for _ in 0..12 {
            let counts = (random.up_to(forward), random.up_to(backward));
            let mut reached = theory.bench(counts.0 as usize, counts.1 as usize);
            let mut finished = theory.finished();
            let mut sound = inputs::sound_bench(random, map, order);
            let shaped = inputs::shaped_bench(random, map, order);
            self.every_call(random, map, order, &sound);
            self.every_call(random, map, order, &shaped);
            for bench in [&mut reached, &mut finished, &mut sound] {
                inputs::damage(random, map, bench);
                self.every_call(random, map, order, bench);
            }
        }
    }

    /// Each call on this bench, as it is and with numbers and lengths disturbed, and then turns on it.
    fn every_call(&mut self, random: &mut Random, map: &Map, order: Order, bench: &[u32]) {
        let locality = random.pick(&[0, 1, 2, 5, 30, CEILING]);
        let crossing = random.between(1, map.n);
        let room = random.up_to(2 * map.n) as usize;
        let inputs = [
            Input::open(map, order),
            Input::turn(Side::Forward, map, bench),
            Input::turn(Side::Backward, map, bench),
            Input::area(map, bench, locality),
            Input::route(map, bench, crossing, room),
            Input::route(map, bench, order.target, 2 * map.n as usize),
        ];
        for mut input in inputs {
            self.compare(&input);
            for _ in 0..3 {
                inputs::disturb(random, &mut input);
                self.compare(&input);
            }
        }
        let mut turned = bench.to_vec();
        for _ in 0..random.up_to(2 * map.n) {
            let side = random.pick(&SIDES);
            let outcome = self.compare(&Input::turn(side, map, &turned));
            if number_of(outcome.answer) > 0 {
                break;
            }
            turned = outcome.bench;
        }
        self.compare(&Input::area(map, &turned, locality));
    }

    /// The map as a text, with comments and with damage, for the reader and for the program.
    fn random_texts(&mut self, random: &mut Random, map: &Map, order: Order) {
        let text = inputs::with_comments(random, &inputs::text(map));
        let room = map.words.len();
        for room in [room.saturating_sub(1), room, room + 5] {
            self.compare(&Input::read(&text, room));
        }
        for _ in 0..20 {
            let damaged = inputs::damaged_somewhere(random, &text);
            self.compare(&Input::read(&damaged, room));
        }
        let locality = random.pick(&[0, 1, 3, 1_000]);
        let numbers = [order.start, order.target, order.stretch, locality];
        let arguments = numbers.map(|number| number.to_string().into_bytes());
        self.compare_program(&arguments, &text);
        let damaged = inputs::damaged_somewhere(random, &text);
        self.compare_program(&arguments, &damaged);
    }

    pub fn long_texts(&mut self) {
        for text in inputs::long_texts() {
            if self.differs() {
                return;
            }
            for room in [21, 49_151, 49_152] {
                self.compare(&Input::read(&text, room));
            }
        }
    }

    fn large(&mut self) {
        let random = &mut Random::new(SEED);
        for (map, order) in inputs::large(random) {
            if self.differs() {
                return;
            }
            self.compare(&Input::read(&inputs::text(&map), map.words.len()));
            self.edges(&map, order);
            self.some_turns(random, &map, order);
        }
    }

    /// Opening and turns with each lent slice one word too short, and longer.
    fn edges(&mut self, map: &Map, order: Order) {
        let opened = Theory::new(map, order).bench(0, 0);
        for mut input in [
            Input::open(map, order),
            Input::turn(Side::Forward, map, &opened),
            Input::turn(Side::Backward, map, &opened),
            Input::area(map, &opened, 0),
        ] {
            input.bench.push(1);
            self.compare(&input);
            input.bench.truncate(bench_length(map.n) - 1);
            self.compare(&input);
            input.map.truncate(map.words.len() - 1);
            self.compare(&input);
            input.n += 1;
            self.compare(&input);
        }
    }
}
