//! What document 01 defines, had without taking a turn: least costs by Bellman-Ford, the settling order by
//! sorting, B, BL and the routes over least costs and lowest-link trails, and the whole bench after any
//! number of settled turns of each half. For maps and orders in range only.

use crate::paper::*;

#[derive(Clone, Debug)]
pub struct Map {
    pub n: u32,
    /// Tail, head and cost of each link.
    pub words: Vec<u32>,
}

impl Map {
    pub fn m(&self) -> u32 {
        self.words.len() as u32 / 3
    }

    /// Number, tail, head and cost of each link, as a half drives it.
    pub fn links(&self, side: Side) -> impl Iterator<Item = (u32, u32, u32, u32)> + '_ {
        (1..)
            .zip(self.words.chunks_exact(3))
            .map(move |(number, link)| match side {
                Side::Forward => (number, link[0], link[1], link[2]),
                Side::Backward => (number, link[1], link[0], link[2]),
            })
    }
}

#[derive(Clone, Copy, Debug)]
pub struct Order {
    pub start: u32,
    pub target: u32,
    pub stretch: u32,
}

impl Order {
    pub fn new(start: u32, target: u32, stretch: u32) -> Order {
        Order {
            start,
            target,
            stretch,
        }
    }
}

/// What one half comes to. Crossing i stands at index i - 1.
struct Field {
    root: u32,
    /// Least cost of each crossing from the start (to the target), if there is a way.
    least: Vec<Option<u32>>,
    /// Tail of the lowest link among those that end a cheapest way.
    before: Vec<Option<u32>>,
    /// Least cost and number of the crossings that have one, sorted: the settling order.
    order: Vec<(u32, u32)>,
}

fn index(crossing: u32) -> usize {
    crossing as usize - 1
}

/// Bellman-Ford: every link again and again until none betters a cost.
fn least_costs(map: &Map, side: Side, root: u32) -> Vec<Option<u32>> {
    let mut least = vec![None; map.n as usize];
    least[index(root)] = Some(0);
    let mut changed = true;
    while changed {
        changed = false;
        for (_, tail, head, cost) in map.links(side) {
            let Some(sum) = least[index(tail)].map(|before: u32| before + cost) else {
                continue;
            };
            if least[index(head)].is_none_or(|known| sum < known) {
                least[index(head)] = Some(sum);
                changed = true;
            }
        }
    }
    least
}

impl Field {
    fn new(map: &Map, side: Side, root: u32) -> Field {
        let least = least_costs(map, side, root);
        let mut before = vec![None; map.n as usize];
        for (_, tail, head, cost) in map.links(side) {
            let sum = least[index(tail)].map(|least| least + cost);
            if sum.is_some() && sum == least[index(head)] {
                before[index(head)].get_or_insert(tail);
            }
        }
        let mut order: Vec<(u32, u32)> = (1..=map.n)
            .filter_map(|crossing| Some((least[index(crossing)]?, crossing)))
            .collect();
        order.sort();
        Field {
            root,
            least,
            before,
            order,
        }
    }

    fn least(&self, crossing: u32) -> Option<u32> {
        self.least[index(crossing)]
    }

    /// How many turns it takes to settle a crossing, if there is a way.
    fn turns_to(&self, crossing: u32) -> Option<usize> {
        let place = self
            .order
            .iter()
            .position(|&(_, other)| other == crossing)?;
        Some(place + 1)
    }

    /// The crossings from this one back to the root, by lowest links.
    fn trail(&self, crossing: u32) -> Vec<u32> {
        let mut trail = vec![crossing];
        let mut at = crossing;
        while let Some(before) = self.before[index(at)] {
            trail.push(before);
            at = before;
        }
        trail
    }

    /// Condition (a) of BL for the forward half, (b) for the backward half.
    fn optimal_near(&self, other: &Field, crossing: u32, locality: u32) -> bool {
        self.trail(crossing).iter().all(|&q| {
            let costs = (self.least(crossing), self.least(q), other.least(crossing));
            let (Some(here), Some(there), Some(rest)) = costs else {
                return false;
            };
            let d = here - there;
            d > locality || other.least(q) == Some(d + rest)
        })
    }

    /// The half's 3n words when it has settled its first `count` crossings.
    fn words(&self, map: &Map, side: Side, count: usize) -> Vec<u32> {
        let n = map.n as usize;
        let mut settled = vec![false; n];
        for &(_, crossing) in &self.order[..count] {
            settled[index(crossing)] = true;
        }
        // Least (distance, link number) over the links from settled crossings, (0, 0) at the root.
        let mut best: Vec<Option<(u32, u32)>> = vec![None; n];
        best[index(self.root)] = Some((0, 0));
        for (number, tail, head, cost) in map.links(side) {
            if let (true, Some(before)) = (settled[index(tail)], self.least(tail)) {
                let way = (before + cost, number);
                let known = &mut best[index(head)];
                *known = Some(known.map_or(way, |known| known.min(way)));
            }
        }
        let state = |i: usize| u32::from(best[i].is_some()) + u32::from(settled[i]);
        let distances = best.iter().map(|way| way.map_or(UNKNOWN, |way| way.0));
        let links = best.iter().map(|way| way.map_or(0, |way| way.1));
        distances.chain(links).chain((0..n).map(state)).collect()
    }
}

/// Rule 4 for all crossings of these halves of 3n words each.
pub fn marks(forward: &[u32], backward: &[u32], stretch: u32, optimum: u32) -> Vec<u32> {
    let n = forward.len() / 3;
    let within = |i: usize| {
        let sum = u64::from(forward[i]) + u64::from(backward[i]);
        1_000 * sum <= u64::from(stretch) * u64::from(optimum)
    };
    let settled = |i: usize| forward[2 * n + i] == 2 && backward[2 * n + i] == 2;
    (0..n)
        .map(|i| u32::from(optimum != UNKNOWN && settled(i) && within(i)))
        .collect()
}

/// One map and order, and what follows from them.
pub struct Theory {
    pub map: Map,
    pub order: Order,
    from: Field,
    to: Field,
}

impl Theory {
    pub fn new(map: &Map, order: Order) -> Theory {
        Theory {
            map: map.clone(),
            order,
            from: Field::new(map, Side::Forward, order.start),
            to: Field::new(map, Side::Backward, order.target),
        }
    }

    pub fn optimum(&self) -> Option<u32> {
        self.from.least(self.order.target)
    }

    fn field(&self, side: Side) -> &Field {
        match side {
            Side::Forward => &self.from,
            Side::Backward => &self.to,
        }
    }

    fn within(&self, cost: u32, optimum: u32) -> bool {
        1_000 * u64::from(cost) <= u64::from(self.order.stretch) * u64::from(optimum)
    }

    /// How many crossings a half settles until it is done.
    pub fn settles(&self, side: Side) -> usize {
        self.field(side).order.partition_point(|&(cost, _)| {
            let optimum = self.optimum();
            optimum.is_none_or(|optimum| self.within(cost, optimum))
        })
    }

    /// What a half answers to the turn after this many settled ones.
    pub fn turn(&self, side: Side, count: usize) -> Turn {
        let settled = &self.field(side).order[..self.settles(side)];
        match settled.get(count) {
            Some(&(distance, crossing)) => Turn::Settled { crossing, distance },
            None => Turn::Done,
        }
    }

    /// The bench after this many settled turns of each half.
    pub fn bench(&self, forward: usize, backward: usize) -> Vec<u32> {
        let Order {
            start,
            target,
            stretch,
        } = self.order;
        let met = |turns: Option<usize>, count| turns.is_some_and(|turns| turns <= count);
        let known =
            met(self.from.turns_to(target), forward) || met(self.to.turns_to(start), backward);
        let optimum = self.optimum().filter(|_| known).unwrap_or(UNKNOWN);
        let from = self.from.words(&self.map, Side::Forward, forward);
        let to = self.to.words(&self.map, Side::Backward, backward);
        let header = [self.map.n, self.map.m(), start, target, stretch, optimum];
        let marks = marks(&from, &to, stretch, optimum);
        [&header[..], &from, &to, &marks].concat()
    }

    /// The bench when both halves are done.
    pub fn finished(&self) -> Vec<u32> {
        self.bench(self.settles(Side::Forward), self.settles(Side::Backward))
    }

    /// Whether least cost from the start plus least cost to the target stays within the limit.
    fn in_b(&self, crossing: u32) -> bool {
        let costs = (self.from.least(crossing), self.to.least(crossing));
        match (costs, self.optimum()) {
            ((Some(from), Some(to)), Some(optimum)) => self.within(from + to, optimum),
            _ => false,
        }
    }

    /// Whether a crossing of B is in BL.
    fn in_bl(&self, crossing: u32, locality: u32) -> bool {
        self.from.optimal_near(&self.to, crossing, locality)
            && self.to.optimal_near(&self.from, crossing, locality)
    }

    /// The finished mask: 0 outside B, 1 in B only, 2 also in BL.
    pub fn mask(&self, locality: u32) -> Vec<u8> {
        let byte = |crossing| {
            if !self.in_b(crossing) {
                0
            } else if !self.in_bl(crossing, locality) {
                1
            } else {
                2
            }
        };
        (1..=self.map.n).map(byte).collect()
    }

    /// The route through a crossing of B, none through others.
    pub fn route(&self, crossing: u32) -> Option<Vec<u32>> {
        let mut route = self.from.trail(crossing);
        route.reverse();
        route.extend(&self.to.trail(crossing)[1..]);
        self.in_b(crossing).then_some(route)
    }
}
