//! One order on a grid, with all that is lent to the calls.

use crate::calls::{Calls, Library};
use crate::grid::Grid;
use crate::heap;
use sankayop::{bench_words, map_words, route_words};

pub const STRETCH: u32 = 1200;

#[derive(Clone, PartialEq)]
pub struct Order {
    pub n: u32,
    pub m: u32,
    pub text: Vec<u8>,
    pub map: Vec<u32>,
    pub bench: Vec<u32>,
    pub mask: Vec<u8>,
    pub route: Vec<u32>,
    pub locality: u32,
}

impl Order {
    /// From the first crossing of a grid to its last.
    pub fn new(grid: Grid) -> Self {
        let Grid { n, m, text } = grid;
        let mut order = Order {
            n,
            m,
            text,
            map: vec![0; map_words(m)],
            bench: vec![0; bench_words(n)],
            mask: vec![0; n as usize],
            route: vec![0; route_words(n)],
            locality: 5000,
        };
        assert_eq!(Library.read(&mut order), Ok((n, m)), "a good text");
        order
    }

    /// The mask of the whole order over a heap, with memory of its own; the optimum.
    pub fn heap_whole(&mut self) -> u32 {
        let ends = [1, self.n as usize];
        let (n, m, locality) = (self.n, self.m, self.locality);
        heap::order(&self.map, n, m, ends, STRETCH, locality, &mut self.mask).expect("a good map")
    }
}
