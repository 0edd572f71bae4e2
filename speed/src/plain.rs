//! The calls in plain, idiomatic Rust: the same checks in the same order and the same work on the same slices, each in the
//! quickest plain form that was found.

pub const UNKNOWN: u32 = u32::MAX;
pub const CEILING: u32 = 268_365_825;

/// Tail, head and cost.
pub type Link = [u32; 3];

#[derive(Clone, Copy)]
pub enum Side {
    Forward,
    Backward,
}

impl Side {
    /// The end that this side leaves, and the one that it comes to.
    pub fn ends(self, [tail, head, _]: Link) -> (usize, usize) {
        let (tail, head) = (tail as usize - 1, head as usize - 1);
        match self {
            Side::Forward => (tail, head),
            Side::Backward => (head, tail),
        }
    }
}

/// The check of a map that a call makes first: its links, or the first number of refusal.
pub type Check = for<'a> fn(&'a [u32], u32, u32) -> Result<&'a [Link], u32>;

/// The links of a map, not looked at yet.
fn lent_links(map: &[u32], n: u32, m: u32) -> Result<&[Link], u32> {
    if !(1..=4096).contains(&n) || m > 16384 {
        return Err(2);
    }
    let (links, _) = map.get(..3 * m as usize).ok_or(3_u32)?.as_chunks();
    Ok(links)
}

/// Looks at one link after the other, and returns at the first fault.
pub fn links_in_order(map: &[u32], n: u32, m: u32) -> Result<&[Link], u32> {
    let links = lent_links(map, n, m)?;
    for &[tail, head, cost] in links {
        if !(1..=n).contains(&tail) || !(1..=n).contains(&head) {
            return Err(4);
        }
        if !(1..=65535).contains(&cost) {
            return Err(5);
        }
    }
    Ok(links)
}

/// Asks first whether there is any fault, and only then which is the first.
pub fn links(map: &[u32], n: u32, m: u32) -> Result<&[Link], u32> {
    let links = lent_links(map, n, m)?;
    let fits = |&[tail, head, cost]: &Link| {
        (1..=n).contains(&tail) & (1..=n).contains(&head) & (1..=65535).contains(&cost)
    };
    if links.iter().fold(true, |fine, link| fine & fits(link)) {
        return Ok(links);
    }
    links_in_order(map, n, m)
}

/// The one comparison with stretch times optimum.
pub fn within(stretch: u32, optimum: u32, a: u32, b: u32) -> bool {
    1000 * (u64::from(a) + u64::from(b)) <= u64::from(stretch) * u64::from(optimum)
}

/// What a half holds of one crossing.
struct Entry {
    dist: u32,
    link: u32,
    state: u32,
}

/// Rule 4 for one crossing.
fn mark(stretch: u32, optimum: u32, from: Entry, to: Entry) -> u32 {
    let settled = optimum != UNKNOWN && from.state == 2 && to.state == 2;
    u32::from(settled && within(stretch, optimum, from.dist, to.dist))
}

struct Half<'a> {
    dist: &'a [u32],
    link: &'a [u32],
    state: &'a [u32],
}

impl<'a> Half<'a> {
    fn of(words: &'a [u32], n: usize) -> Self {
        let (dist, words) = words.split_at(n);
        let (link, state) = words.split_at(n);
        Half { dist, link, state }
    }

    fn entries(&self) -> impl Iterator<Item = Entry> + 'a {
        let words = self.dist.iter().zip(self.link).zip(self.state);
        words.map(|((&dist, &link), &state)| Entry { dist, link, state })
    }

    fn is_well_shaped(&self, m: u32) -> bool {
        let fits = |Entry { dist, link, state }| match state {
            0 => dist == UNKNOWN && link == 0,
            1 | 2 => dist <= CEILING && link <= m,
            _ => false,
        };
        self.entries().fold(true, |fine, entry| fine & fits(entry))
    }

    /// The lowest index on a tie.
    fn nearest_open(&self) -> Option<usize> {
        let open = self
            .entries()
            .enumerate()
            .filter(|(_, entry)| entry.state == 1);
        open.min_by_key(|(_, entry)| entry.dist).map(|(v, _)| v)
    }

    fn is_sound(&self, links: &[Link], side: Side, root: u32) -> bool {
        self.entries()
            .zip(0..)
            .all(|(Entry { dist, link, state }, v)| {
                if v + 1 == root as usize {
                    return dist == 0 && link == 0 && state == 2;
                }
                if state != 2 {
                    return true;
                }
                let Some(&ends) = links.get((link as usize).wrapping_sub(1)) else {
                    return false;
                };
                let (near, far) = side.ends(ends);
                far == v && self.state[near] == 2 && self.dist[near] + ends[2] == dist
            })
    }

    /// The crossings of the trail of x.
    fn trail<'b>(
        &'b self,
        links: &'b [Link],
        side: Side,
        x: usize,
    ) -> impl Iterator<Item = usize> + 'b {
        std::iter::successors(Some(x), move |&v| match self.link[v] {
            0 => None,
            k => Some(side.ends(links[k as usize - 1]).0),
        })
    }

    /// Every crossing of the trail of x within the locality is settled at the right distance in the other half too.
    fn is_local(&self, other: &Half, links: &[Link], side: Side, locality: u32, x: usize) -> bool {
        self.trail(links, side, x)
            .map(|v| (v, self.dist[x] - self.dist[v]))
            .take_while(|&(_, d)| d <= locality)
            .all(|(v, d)| other.state[v] == 2 && other.dist[v] == d + other.dist[x])
    }
}

struct Bench<'a> {
    head: [u32; 6],
    forward: Half<'a>,
    backward: Half<'a>,
    marks: &'a [u32],
}

impl<'a> Bench<'a> {
    /// The parts of a bench that is long enough and well shaped.
    fn of(words: &'a [u32], n: u32, m: u32) -> Result<Self, u32> {
        let crossings = n as usize;
        let words = words.get(..6 + 7 * crossings).ok_or(3_u32)?;
        let (&head, words) = words.split_first_chunk().ok_or(3_u32)?;
        let (forward, words) = words.split_at(3 * crossings);
        let (backward, marks) = words.split_at(3 * crossings);
        let (forward, backward) = (Half::of(forward, crossings), Half::of(backward, crossings));
        let bench = Bench {
            head,
            forward,
            backward,
            marks,
        };
        if bench.is_well_shaped(n, m) {
            Ok(bench)
        } else {
            Err(6)
        }
    }

    fn is_well_shaped(&self, n: u32, m: u32) -> bool {
        let [crossings, links, start, target, stretch, optimum] = self.head;
        crossings == n
            && links == m
            && (1..=n).contains(&start)
            && (1..=n).contains(&target)
            && (1000..=4000).contains(&stretch)
            && (optimum == UNKNOWN || optimum <= CEILING)
            && self.forward.is_well_shaped(m)
            && self.backward.is_well_shaped(m)
            && self
                .marks
                .iter()
                .fold(true, |fine, &mark| fine & (mark <= 1))
    }

    fn half(&self, side: Side) -> &Half<'a> {
        match side {
            Side::Forward => &self.forward,
            Side::Backward => &self.backward,
        }
    }

    /// The index of the crossing that a half settles next, and its distance; none if the half is done.
    fn next(&self, side: Side) -> Option<(usize, u32)> {
        let [.., stretch, optimum] = self.head;
        let half = self.half(side);
        let x = half.nearest_open()?;
        let d = half.dist[x];
        (optimum == UNKNOWN || within(stretch, optimum, d, 0)).then_some((x, d))
    }

    fn are_marks_right(&self) -> bool {
        let [.., stretch, optimum] = self.head;
        let both = self.forward.entries().zip(self.backward.entries());
        let marks = both.map(|(from, to)| mark(stretch, optimum, from, to));
        self.marks
            .iter()
            .zip(marks)
            .fold(true, |right, (&held, due)| right & (held == due))
    }

    /// Both halves are done, there is a route, and trails and marks are sound.
    fn finished(&self, links: &[Link]) -> Result<(), u32> {
        if self.next(Side::Forward).is_some() || self.next(Side::Backward).is_some() {
            return Err(8);
        }
        let [_, _, start, target, _, optimum] = self.head;
        if optimum == UNKNOWN {
            return Err(9);
        }
        if !self.forward.is_sound(links, Side::Forward, start)
            || !self.backward.is_sound(links, Side::Backward, target)
            || !self.are_marks_right()
        {
            return Err(7);
        }
        Ok(())
    }

    /// What the mask holds of the crossing at index x.
    fn mask(&self, links: &[Link], locality: u32, x: usize) -> u8 {
        let (f, b) = (&self.forward, &self.backward);
        let local = || {
            f.is_local(b, links, Side::Forward, locality, x)
                && b.is_local(f, links, Side::Backward, locality, x)
        };
        match self.marks[x] {
            1 if local() => 2,
            1 => 1,
            _ => 0,
        }
    }
}

pub fn open(
    map: &[u32],
    n: u32,
    m: u32,
    start: u32,
    target: u32,
    stretch: u32,
    bench: &mut [u32],
) -> Result<(), u32> {
    links(map, n, m)?;
    if !(1..=n).contains(&start) || !(1..=n).contains(&target) {
        return Err(4);
    }
    if !(1000..=4000).contains(&stretch) {
        return Err(5);
    }
    let crossings = n as usize;
    let bench = bench.get_mut(..6 + 7 * crossings).ok_or(3_u32)?;
    let (head, words) = bench.split_at_mut(6);
    head.copy_from_slice(&[n, m, start, target, stretch, UNKNOWN]);
    words.fill(0);
    for (half, root) in words.chunks_exact_mut(3 * crossings).zip([start, target]) {
        let root = root as usize - 1;
        half[..crossings].fill(UNKNOWN);
        half[root] = 0;
        half[2 * crossings + root] = 1;
    }
    Ok(())
}

/// Rule 2 for the crossing at index x of a half of 3n words.
fn settle(half: &mut [u32], n: usize, links: &[Link], side: Side, x: usize) {
    let (dist, rest) = half.split_at_mut(n);
    let (link, state) = rest.split_at_mut(n);
    let d = dist[x];
    state[x] = 2;
    for (k, &ends) in (1..).zip(links) {
        let (near, far) = side.ends(ends);
        let sum = d + ends[2];
        if near != x || state[far] == 2 || sum > CEILING {
            continue;
        }
        if state[far] == 0 || sum < dist[far] {
            (dist[far], link[far], state[far]) = (sum, k, 1);
        } else if sum == dist[far] && k < link[far] {
            link[far] = k;
        }
    }
}

/// Rule 4 over all crossings.
fn remark(bench: &mut [u32], n: usize) {
    let (stretch, optimum) = (bench[4], bench[5]);
    let (halves, marks) = bench[6..6 + 7 * n].split_at_mut(6 * n);
    let (f, b) = halves.split_at(3 * n);
    let both = Half::of(f, n).entries().zip(Half::of(b, n).entries());
    for (held, (from, to)) in marks.iter_mut().zip(both) {
        *held = mark(stretch, optimum, from, to);
    }
}

/// The crossing that is settled and its distance; none if the half is done.
pub fn turn(
    check: Check,
    map: &[u32],
    n: u32,
    m: u32,
    side: Side,
    bench: &mut [u32],
) -> Result<Option<(u32, u32)>, u32> {
    let links = check(map, n, m)?;
    let Some((x, d)) = Bench::of(bench, n, m)?.next(side) else {
        return Ok(None);
    };
    let n = n as usize;
    let (at, goal) = match side {
        Side::Forward => (6, 3),
        Side::Backward => (6 + 3 * n, 2),
    };
    settle(&mut bench[at..at + 3 * n], n, links, side, x);
    let crossing = x as u32 + 1;
    if bench[5] == UNKNOWN && bench[goal] == crossing {
        bench[5] = d;
    }
    remark(bench, n);
    Ok(Some((crossing, d)))
}

pub fn area(
    map: &[u32],
    n: u32,
    m: u32,
    bench: &[u32],
    locality: u32,
    mask: &mut [u8],
) -> Result<(), u32> {
    let links = links(map, n, m)?;
    if locality > CEILING {
        return Err(5);
    }
    let bench = Bench::of(bench, n, m)?;
    let mask = mask.get_mut(..n as usize).ok_or(3_u32)?;
    bench.finished(links)?;
    for (x, byte) in mask.iter_mut().enumerate() {
        *byte = bench.mask(links, locality, x);
    }
    Ok(())
}

/// The length of the route through a crossing, which is written over the first words of the buffer.
pub fn route(
    map: &[u32],
    n: u32,
    m: u32,
    bench: &[u32],
    crossing: u32,
    buffer: &mut [u32],
) -> Result<usize, u32> {
    let links = links(map, n, m)?;
    if !(1..=n).contains(&crossing) {
        return Err(4);
    }
    let bench = Bench::of(bench, n, m)?;
    bench.finished(links)?;
    let x = crossing as usize - 1;
    if bench.marks[x] == 0 {
        return Err(10);
    }
    let there = || bench.forward.trail(links, Side::Forward, x);
    let on = || bench.backward.trail(links, Side::Backward, x).skip(1);
    let (before, behind) = (there().count(), on().count());
    let route = buffer.get_mut(..before + behind).ok_or(3_u32)?;
    let (to, from) = route.split_at_mut(before);
    for (word, v) in to.iter_mut().rev().zip(there()) {
        *word = v as u32 + 1;
    }
    for (word, v) in from.iter_mut().zip(on()) {
        *word = v as u32 + 1;
    }
    Ok(before + behind)
}
