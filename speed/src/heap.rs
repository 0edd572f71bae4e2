//! The whole order by Dijkstra's algorithm over an indexed binary heap: the map is checked and its links are sorted by their
//! ends once, so a settled crossing costs its own links and some steps in the heap.

use crate::plain::{links, within, Link, Side, CEILING, UNKNOWN};

/// The links that leave each crossing on a side, by number.
struct Leaving {
    first: Vec<u32>,
    links: Vec<u32>,
}

impl Leaving {
    fn of(links: &[Link], n: usize, side: Side) -> Self {
        let mut first = vec![0; n + 1];
        for &link in links {
            first[side.ends(link).0 + 1] += 1;
        }
        for v in 0..n {
            first[v + 1] += first[v];
        }
        let mut next = first.clone();
        let mut sorted = vec![0; links.len()];
        for (k, &link) in links.iter().enumerate() {
            let place = &mut next[side.ends(link).0];
            sorted[*place as usize] = k as u32;
            *place += 1;
        }
        Leaving {
            first,
            links: sorted,
        }
    }

    fn of_crossing(&self, v: usize) -> &[u32] {
        &self.links[self.first[v] as usize..self.first[v + 1] as usize]
    }
}

/// Open crossings by distance and then number, each with its place.
struct Heap {
    order: Vec<u32>,
    place: Vec<u32>,
}

impl Heap {
    fn new(n: usize) -> Self {
        Heap {
            order: Vec::with_capacity(n),
            place: vec![UNKNOWN; n],
        }
    }

    fn put(&mut self, at: usize, v: u32) {
        self.order[at] = v;
        self.place[v as usize] = at as u32;
    }

    fn rise(&mut self, mut at: usize, dist: &[u32]) {
        let v = self.order[at];
        while at > 0 {
            let above = self.order[(at - 1) / 2];
            if (dist[above as usize], above) <= (dist[v as usize], v) {
                break;
            }
            self.put(at, above);
            at = (at - 1) / 2;
        }
        self.put(at, v);
    }

    fn sink(&mut self, mut at: usize, dist: &[u32]) {
        let v = self.order[at];
        let key = |v: u32| (dist[v as usize], v);
        loop {
            let below = [2 * at + 1, 2 * at + 2];
            let Some(next) = below
                .into_iter()
                .filter(|&i| i < self.order.len())
                .min_by_key(|&i| key(self.order[i]))
            else {
                break;
            };
            if key(v) <= key(self.order[next]) {
                break;
            }
            self.put(at, self.order[next]);
            at = next;
        }
        self.put(at, v);
    }

    /// v came nearer, or is new.
    fn offer(&mut self, v: u32, dist: &[u32]) {
        if self.place[v as usize] == UNKNOWN {
            self.place[v as usize] = self.order.len() as u32;
            self.order.push(v);
        }
        self.rise(self.place[v as usize] as usize, dist);
    }

    fn take(&mut self, dist: &[u32]) {
        let last = self.order.pop();
        if let (Some(last), false) = (last, self.order.is_empty()) {
            self.put(0, last);
            self.sink(0, dist);
        }
    }
}

struct Costs {
    dist: Vec<u32>,
    link: Vec<u32>,
    settled: Vec<bool>,
    optimum: u32,
}

/// Settles crossings from the root on, until none is within the stretch. The goal gives the optimum where it is unknown.
fn costs(
    links: &[Link],
    n: usize,
    side: Side,
    [root, goal]: [usize; 2],
    stretch: u32,
    mut optimum: u32,
) -> Costs {
    let leaving = Leaving::of(links, n, side);
    let (mut dist, mut link, mut settled) = (vec![UNKNOWN; n], vec![0; n], vec![false; n]);
    let mut heap = Heap::new(n);
    dist[root] = 0;
    heap.offer(root as u32, &dist);
    while let Some(&x) = heap.order.first() {
        let x = x as usize;
        if optimum != UNKNOWN && !within(stretch, optimum, dist[x], 0) {
            break;
        }
        settled[x] = true;
        heap.take(&dist);
        if x == goal && optimum == UNKNOWN {
            optimum = dist[x];
        }
        for &k in leaving.of_crossing(x) {
            let ends = links[k as usize];
            let far = side.ends(ends).1;
            let sum = dist[x] + ends[2];
            if settled[far] || sum > CEILING {
                continue;
            }
            if sum < dist[far] {
                (dist[far], link[far]) = (sum, k + 1);
                heap.offer(far as u32, &dist);
            } else if sum == dist[far] && k + 1 < link[far] {
                link[far] = k + 1;
            }
        }
    }
    Costs {
        dist,
        link,
        settled,
        optimum,
    }
}

impl Costs {
    /// Every crossing of the trail of x within the locality is settled at the right distance in the other half too.
    fn is_local(&self, other: &Costs, links: &[Link], side: Side, locality: u32, x: usize) -> bool {
        let mut v = x;
        loop {
            let d = self.dist[x] - self.dist[v];
            if d > locality {
                return true;
            }
            if !other.settled[v] || other.dist[v] != d + other.dist[x] {
                return false;
            }
            match self.link[v] {
                0 => return true,
                k => v = side.ends(links[k as usize - 1]).0,
            }
        }
    }
}

/// Fills the mask of an order from a start to a target; the optimum.
pub fn order(
    map: &[u32],
    n: u32,
    m: u32,
    [start, target]: [usize; 2],
    stretch: u32,
    locality: u32,
    mask: &mut [u8],
) -> Result<u32, u32> {
    let links = links(map, n, m)?;
    let (n, start, target) = (n as usize, start - 1, target - 1);
    let forward = costs(links, n, Side::Forward, [start, target], stretch, UNKNOWN);
    let optimum = forward.optimum;
    let backward = costs(links, n, Side::Backward, [target, start], stretch, optimum);
    for (x, byte) in mask.iter_mut().enumerate() {
        let marked = forward.settled[x]
            && backward.settled[x]
            && within(stretch, optimum, forward.dist[x], backward.dist[x]);
        let local = || {
            forward.is_local(&backward, links, Side::Forward, locality, x)
                && backward.is_local(&forward, links, Side::Backward, locality, x)
        };
        *byte = match marked {
            true if local() => 2,
            true => 1,
            false => 0,
        };
    }
    Ok(optimum)
}
