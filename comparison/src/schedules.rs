//! Turns in many orders: after each of them the bench must be the one that the definitions give for the
//! two counts of settled crossings, and the finished benches must give their B, BL and routes.

use crate::comparison::{Answer, Comparison};
use crate::inputs::{Input, Random};
use crate::paper::*;
use crate::theory::{Map, Order, Theory};

/// An order with the bench that the definitions give for each two counts.
struct Plan {
    theory: Theory,
    benches: Vec<Vec<Vec<u32>>>,
}

impl Plan {
    fn new(map: &Map, order: Order) -> Plan {
        let theory = Theory::new(map, order);
        let [forward, backward] = SIDES.map(|side| theory.settles(side));
        let row = |i| (0..=backward).map(|j| theory.bench(i, j)).collect();
        let benches = (0..=forward).map(row).collect();
        Plan { theory, benches }
    }
}

/// How many crossings each half has settled.
#[derive(Clone, Copy, PartialEq)]
struct Counts {
    forward: usize,
    backward: usize,
}

impl Counts {
    const NONE: Counts = Counts {
        forward: 0,
        backward: 0,
    };

    fn of(&mut self, side: Side) -> &mut usize {
        match side {
            Side::Forward => &mut self.forward,
            Side::Backward => &mut self.backward,
        }
    }

    /// The counts after one more turn of a half.
    fn after(mut self, side: Side, theory: &Theory) -> Counts {
        let count = self.of(side);
        *count = theory.settles(side).min(*count + 1);
        self
    }

    fn are_final(self, theory: &Theory) -> bool {
        SIDES.iter().all(|&side| self.after(side, theory) == self)
    }
}

impl Comparison {
    /// Every order of the turns of both halves, and area and routes for every two counts.
    pub fn all_schedules(&mut self, map: &Map, order: Order) {
        let plan = Plan::new(map, order);
        let opened = self.opened(&plan.theory);
        self.branches(&plan, &opened, Counts::NONE);
        for (forward, row) in plan.benches.iter().enumerate() {
            for (backward, bench) in row.iter().enumerate() {
                let counts = Counts { forward, backward };
                self.answers(&plan.theory, bench, counts, &[0, 1, 2, 7, CEILING]);
            }
        }
    }

    /// One random order of the turns, then area and routes.
    pub fn random_schedule(&mut self, random: &mut Random, map: &Map, order: Order) {
        let theory = Theory::new(map, order);
        let mut bench = self.opened(&theory);
        let mut counts = Counts::NONE;
        let backward_in = random.between(2, 5);
        while !counts.are_final(&theory) && !self.differs() {
            let side = if random.one_in(backward_in) {
                Side::Backward
            } else {
                Side::Forward
            };
            let after = counts.after(side, &theory);
            let due = theory.bench(after.forward, after.backward);
            bench = self.turn(&theory, side, &bench, counts, &due);
            counts = after;
        }
        self.schedules += u64::from(counts.are_final(&theory));
        let locality = random.up_to(theory.optimum().unwrap_or(CEILING));
        self.answers(&theory, &bench, counts, &[0, 1, locality, CEILING]);
    }

    /// A turn of each half at some counts, the first and the last among them, then area and routes: all the
    /// turns of a large map take too long.
    pub fn some_turns(&mut self, random: &mut Random, map: &Map, order: Order) {
        let theory = Theory::new(map, order);
        self.opened(&theory);
        let [forward, backward] = SIDES.map(|side| theory.settles(side));
        let last = Counts { forward, backward };
        let mut any = || Counts {
            forward: random.up_to(forward as u32) as usize,
            backward: random.up_to(backward as u32) as usize,
        };
        for counts in [Counts::NONE, any(), any(), any(), any(), any(), last] {
            let bench = theory.bench(counts.forward, counts.backward);
            for side in SIDES {
                let after = counts.after(side, &theory);
                let due = theory.bench(after.forward, after.backward);
                self.turn(&theory, side, &bench, counts, &due);
            }
        }
        let locality = random.up_to(theory.optimum().unwrap_or(CEILING));
        self.answers(&theory, &theory.finished(), last, &[0, locality, CEILING]);
    }

    /// The bench after opening.
    fn opened(&mut self, theory: &Theory) -> Vec<u32> {
        let input = Input::open(&theory.map, theory.order);
        let outcome = self.compare(&input);
        self.expect_words(&input, "bench", &outcome.bench, &theory.bench(0, 0));
        outcome.bench
    }

    /// The bench after one turn.
    fn turn(
        &mut self,
        theory: &Theory,
        side: Side,
        bench: &[u32],
        mut counts: Counts,
        due: &[u32],
    ) -> Vec<u32> {
        let input = Input::turn(side, &theory.map, bench);
        let outcome = self.compare(&input);
        let answer = Answer(theory.turn(side, *counts.of(side)).packed());
        self.expect(&input, "the answer", Answer(outcome.answer), answer);
        self.expect_words(&input, "bench", &outcome.bench, due);
        outcome.bench
    }

    /// All ways to go on from these counts.
    fn branches(&mut self, plan: &Plan, bench: &[u32], counts: Counts) {
        for side in SIDES {
            let after = counts.after(side, &plan.theory);
            let due = &plan.benches[after.forward][after.backward];
            let turned = self.turn(&plan.theory, side, bench, counts, due);
            if after != counts {
                self.branches(plan, &turned, after);
            }
        }
        if counts.are_final(&plan.theory) {
            self.schedules += 1;
        }
    }

    /// The area at these localities and the route through every crossing, or some of very many.
    fn answers(&mut self, theory: &Theory, bench: &[u32], counts: Counts, localities: &[u32]) {
        let refusal = match theory.optimum() {
            _ if !counts.are_final(theory) => 8,
            None => 9,
            Some(_) => 0,
        };
        for &locality in localities {
            let input = Input::area(&theory.map, bench, locality);
            let outcome = self.compare(&input);
            self.expect(&input, "the number", number_of(outcome.answer), refusal);
            if refusal == 0 {
                self.expect_words(&input, "mask", &outcome.mask, &theory.mask(locality));
            }
        }
        let n = theory.map.n;
        for crossing in (1..=n).step_by(1 + n as usize / 64) {
            self.routes(theory, bench, crossing, refusal);
        }
    }

    /// The route through a crossing, into a buffer that just holds it and into one word less.
    fn routes(&mut self, theory: &Theory, bench: &[u32], crossing: u32, refusal: u32) {
        let due = theory.route(crossing);
        let room = due.as_ref().map_or(1, Vec::len);
        let number = match due {
            _ if refusal > 0 => refusal,
            None => 10,
            Some(_) => 0,
        };
        let input = Input::route(&theory.map, bench, crossing, room);
        let outcome = self.compare(&input);
        self.expect(&input, "the number", number_of(outcome.answer), number);
        if let (0, Some(due)) = (number, due) {
            self.expect_words(&input, "route", &outcome.route, &due);
            self.compare(&Input::route(&theory.map, bench, crossing, room - 1));
        }
    }
}
