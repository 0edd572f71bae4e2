//! All sides give the same answers and leave the same memory, before anything is timed.

use crate::calls::{Calls, Library, Plain};
use crate::grid::Random;
use crate::order::Order;
use crate::plain::{self, Side};
use std::fmt::Debug;

/// One call by each side, each with memory of its own; its answer.
fn same<A: PartialEq + Debug>(order: &mut Order, call: impl Fn(&dyn Calls, &mut Order) -> A) -> A {
    let before = order.clone();
    let answer = call(&Library, order);
    for plain in [Plain(plain::links), Plain(plain::links_in_order)] {
        let mut other = before.clone();
        assert_eq!(answer, call(&plain, &mut other), "an answer differs");
        assert!(*order == other, "what is left in memory differs");
    }
    answer
}

/// The readers on the text, and on the text with one byte changed.
fn readers(order: &Order, random: &mut Random) {
    let mut changed = order.clone();
    for _ in 0..1000 {
        changed.map.fill(7);
        let _ = same(&mut changed, |calls, order| calls.read(order));
        changed.text.copy_from_slice(&order.text);
        let at = random.below(changed.text.len() as u32) as usize;
        changed.text[at] = random.pick(b"0123456789 acps\n\r");
    }
}

/// The whole order, step by step, and the routes through all crossings.
fn wholes(order: &mut Order) {
    let _ = same(order, |calls, order| calls.open(order));
    let done =
        |order: &mut Order, side| same(order, |calls, order| calls.turn(order, side)) == Ok(None);
    while !(done(order, Side::Forward) & done(order, Side::Backward)) {}
    for crossing in 0..=order.n + 1 {
        let _ = same(order, |calls, order| calls.route(order, crossing));
    }
    for locality in [0, 100, 500, 1000, 2000, plain::CEILING] {
        let mut order = order.clone();
        order.locality = locality;
        assert_eq!(same(&mut order, |calls, order| calls.area(order)), Ok(()));
        let mask = order.mask.clone();
        let optimum = order.bench[sankayop::OPTIMUM_AT];
        assert_eq!(
            order.heap_whole(),
            optimum,
            "the heap finds another optimum"
        );
        assert_eq!(order.mask, mask, "the heap finds another area");
    }
}

/// Areas, routes and turns on the map and the bench with one word changed, so that their checks agree too.
fn damaged(order: &Order, random: &mut Random) {
    for _ in 0..500 {
        let mut order = order.clone();
        let word = random.pick(&[0, 1, 2, 3, order.n, order.n + 1, 70_000, u32::MAX]);
        let lent = if random.below(4) == 0 {
            &mut order.map
        } else {
            &mut order.bench
        };
        let at = random.below(lent.len() as u32) as usize;
        lent[at] = word;
        let middle = order.n / 2;
        let _ = same(&mut order, |calls, order| calls.area(order));
        let _ = same(&mut order, |calls, order| calls.route(order, middle));
        for side in [Side::Forward, Side::Backward] {
            let _ = same(&mut order, |calls, order| calls.turn(order, side));
        }
    }
}

pub fn check(order: &mut Order) {
    let mut random = Random(1);
    readers(order, &mut random);
    wholes(order);
    damaged(order, &mut random);
}
