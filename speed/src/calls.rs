//! The calls on an order as the library and as plain Rust make them, with the same answers: what a call gives, or its number
//! of refusal.

use crate::order::{Order, STRETCH};
use crate::plain::{self, Check, Side};
use crate::reader;
use sankayop::{Filling, Opening, Reading, Routing, Turn};

pub trait Calls {
    /// n and m, or the number of refusal and its line.
    fn read(&self, order: &mut Order) -> Result<(u32, u32), (u32, u32)>;
    fn open(&self, order: &mut Order) -> Result<(), u32>;
    /// The crossing that is settled and its distance; none if the half is done.
    fn turn(&self, order: &mut Order, side: Side) -> Result<Option<(u32, u32)>, u32>;
    fn area(&self, order: &mut Order) -> Result<(), u32>;
    /// The length of the route.
    fn route(&self, order: &mut Order, crossing: u32) -> Result<usize, u32>;

    /// The turns of one half until it is done; how many calls that takes.
    fn half(&self, order: &mut Order, side: Side) -> u32 {
        let mut calls = 1;
        while self.turn(order, side).expect("an opened bench").is_some() {
            calls += 1;
        }
        calls
    }

    /// Opening, turns of both halves in turn until both are done, area.
    fn whole(&self, order: &mut Order) {
        self.open(order).expect("a good order");
        loop {
            let forward = self.turn(order, Side::Forward);
            let backward = self.turn(order, Side::Backward);
            if (forward, backward) == (Ok(None), Ok(None)) {
                break;
            }
        }
        self.area(order).expect("a finished bench");
    }
}

pub struct Library;

impl Calls for Library {
    fn read(&self, o: &mut Order) -> Result<(u32, u32), (u32, u32)> {
        match sankayop::read(&o.text, &mut o.map) {
            Reading::Read { n, m } => Ok((n, m)),
            Reading::Refused(refusal, line) => Err((refusal.number(), line)),
        }
    }

    fn open(&self, o: &mut Order) -> Result<(), u32> {
        match sankayop::open(&o.map, o.n, o.m, 1, o.n, STRETCH, &mut o.bench) {
            Opening::Opened => Ok(()),
            Opening::Refused(refusal) => Err(refusal.number()),
        }
    }

    fn turn(&self, o: &mut Order, side: Side) -> Result<Option<(u32, u32)>, u32> {
        let turn = match side {
            Side::Forward => sankayop::forward(&o.map, o.n, o.m, &mut o.bench),
            Side::Backward => sankayop::backward(&o.map, o.n, o.m, &mut o.bench),
        };
        match turn {
            Turn::Settled { crossing, distance } => Ok(Some((crossing, distance))),
            Turn::Done => Ok(None),
            Turn::Refused(refusal) => Err(refusal.number()),
        }
    }

    fn area(&self, o: &mut Order) -> Result<(), u32> {
        match sankayop::area(&o.map, o.n, o.m, &o.bench, o.locality, &mut o.mask) {
            Filling::Area => Ok(()),
            Filling::Refused(refusal) => Err(refusal.number()),
        }
    }

    fn route(&self, o: &mut Order, crossing: u32) -> Result<usize, u32> {
        match sankayop::route(&o.map, o.n, o.m, &o.bench, crossing, &mut o.route) {
            Routing::Route(crossings) => Ok(crossings.len()),
            Routing::Refused(refusal) => Err(refusal.number()),
        }
    }
}

/// With the check of the map that its turns make.
pub struct Plain(pub Check);

impl Calls for Plain {
    fn read(&self, o: &mut Order) -> Result<(u32, u32), (u32, u32)> {
        reader::read(&o.text, &mut o.map)
    }

    fn open(&self, o: &mut Order) -> Result<(), u32> {
        plain::open(&o.map, o.n, o.m, 1, o.n, STRETCH, &mut o.bench)
    }

    fn turn(&self, o: &mut Order, side: Side) -> Result<Option<(u32, u32)>, u32> {
        plain::turn(self.0, &o.map, o.n, o.m, side, &mut o.bench)
    }

    fn area(&self, o: &mut Order) -> Result<(), u32> {
        plain::area(&o.map, o.n, o.m, &o.bench, o.locality, &mut o.mask)
    }

    fn route(&self, o: &mut Order, crossing: u32) -> Result<usize, u32> {
        plain::route(&o.map, o.n, o.m, &o.bench, crossing, &mut o.route)
    }
}
