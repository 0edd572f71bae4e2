//! Two ways to do the same work timed side by side, as the ratio of their times with its spread.

use crate::order::Order;
use std::hint::black_box;
use std::time::{Duration, Instant};

pub const REPEATS: usize = 25;

pub type Work<'a> = &'a dyn Fn(&mut Order);

/// How a piece of work is timed.
pub struct Setting {
    /// Done before the work each time, and not timed.
    pub ready: fn(&mut Order),
    /// How often the work is done for one figure.
    pub times: u32,
    /// How many calls it makes.
    pub calls: u32,
}

pub const ONCE: Setting = Setting {
    ready: |_| (),
    times: 1,
    calls: 1,
};

/// The seconds that a call takes.
fn time(order: &mut Order, setting: &Setting, work: Work) -> f64 {
    let mut spent = Duration::ZERO;
    for _ in 0..setting.times {
        (setting.ready)(order);
        let begun = Instant::now();
        work(black_box(order));
        spent += begun.elapsed();
    }
    spent.as_secs_f64() / f64::from(setting.times * setting.calls)
}

/// The first quartile, the median and the third quartile.
fn quartiles(mut values: Vec<f64>) -> [f64; 3] {
    values.sort_by(f64::total_cmp);
    [1, 2, 3].map(|quarter| values[(values.len() - 1) * quarter / 4])
}

/// Prints a row of the table. The two take turns, and in going first, so that what slows the machine slows both.
pub fn row(what: &str, order: &mut Order, setting: &Setting, library: Work, other: Work) {
    let (mut ours, mut others) = (Vec::new(), Vec::new());
    for repeat in 0..REPEATS {
        if repeat % 2 == 0 {
            ours.push(time(order, setting, library));
            others.push(time(order, setting, other));
        } else {
            others.push(time(order, setting, other));
            ours.push(time(order, setting, library));
        }
    }
    let ratios = ours
        .iter()
        .zip(&others)
        .map(|(our, other)| our / other)
        .collect();
    let [low, ratio, high] = quartiles(ratios);
    let [our, other] = [ours, others].map(|seconds| quartiles(seconds)[1] * 1e6);
    println!(
        "| {what} | {} / {} | {our:.1} | {other:.1} | {ratio:.2} | {low:.2} to {high:.2} |",
        order.n, order.m
    );
}
