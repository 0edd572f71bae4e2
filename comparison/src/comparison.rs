//! One call of the library held against the reference: on the same memory, the answers and every lent word
//! must be the same. Each wrong variant of the reference is held against it too, until some input tells them
//! apart.

use crate::inputs::{Call, Input};
use crate::paper::*;
use std::collections::BTreeMap;
use std::fmt::{self, Debug, Display, Formatter};
use std::time::{Duration, Instant};

/// The numbers of refusal that document 01 gives to each call.
const NUMBERS: [(Call, &[u32]); 6] = [
    (Call::Read, &[1, 2, 3, 4, 5]),
    (Call::Open, &[2, 3, 4, 5]),
    (Call::Turn(Side::Forward), &[2, 3, 4, 5, 6]),
    (Call::Turn(Side::Backward), &[2, 3, 4, 5, 6]),
    (Call::Area, &[2, 3, 4, 5, 6, 7, 8, 9]),
    (Call::Route, &[2, 3, 4, 5, 6, 7, 8, 9, 10]),
];

/// The answer of a call and all it was lent, afterward.
#[derive(PartialEq)]
pub struct Outcome {
    pub answer: u64,
    pub text: Vec<u8>,
    pub map: Vec<u32>,
    pub bench: Vec<u32>,
    pub mask: Vec<u8>,
    pub route: Vec<u32>,
}

impl Outcome {
    /// All that is lent, before the call.
    pub fn before(input: &Input) -> Outcome {
        Outcome {
            answer: 0,
            text: input.text.clone(),
            map: input.map.clone(),
            bench: input.bench.clone(),
            mask: input.mask.clone(),
            route: input.route.clone(),
        }
    }

    fn of(calls: &Calls, input: &Input) -> Outcome {
        let mut after = Outcome::before(input);
        after.answer = after.call(calls, input);
        after
    }

    fn call(&mut self, calls: &Calls, input: &Input) -> u64 {
        let &Input { n, m, order, .. } = input;
        let (start, target, stretch) = (order.start, order.target, order.stretch);
        let (map, bench) = (&mut self.map, &mut self.bench);
        match input.call {
            Call::Read => (calls.read)(&self.text, map),
            Call::Open => (calls.open)(map, n, m, start, target, stretch, bench),
            Call::Turn(side) => (calls.turn)(side, map, n, m, bench),
            Call::Area => (calls.area)(map, n, m, bench, input.locality, &mut self.mask),
            Call::Route => (calls.route)(map, n, m, bench, input.crossing, &mut self.route),
        }
    }

    /// How this differs from what is due, in words.
    fn difference(&self, due: &Outcome) -> String {
        let answer = (self.answer != due.answer).then(|| {
            let (is, due) = (Answer(self.answer), Answer(due.answer));
            format!("the answer is {is:?}, not {due:?}")
        });
        let parts = [
            answer,
            difference("text", &self.text, &due.text),
            difference("map", &self.map, &due.map),
            difference("bench", &self.bench, &due.bench),
            difference("mask", &self.mask, &due.mask),
            difference("route", &self.route, &due.route),
        ];
        parts.into_iter().flatten().collect::<Vec<_>>().join("; ")
    }
}

fn first_difference<T: PartialEq>(is: &[T], due: &[T]) -> Option<usize> {
    is.iter().zip(due).position(|(is, due)| is != due)
}

/// Where a lent slice first differs from what is due, in words.
fn difference<T: PartialEq + Debug>(name: &str, is: &[T], due: &[T]) -> Option<String> {
    let place = first_difference(is, due)?;
    let (is, due) = (&is[place], &due[place]);
    Some(format!("{name}[{place}] is {is:?}, not {due:?}"))
}

/// What stands for the answer of a call that ended the library's process; no right answer equals it.
pub const NO_ANSWER: u64 = u64::MAX;

/// A packed answer, printed as its number with first and second.
#[derive(PartialEq)]
pub struct Answer(pub u64);

impl Debug for Answer {
    fn fmt(&self, f: &mut Formatter) -> fmt::Result {
        if self.0 == NO_ANSWER {
            return write!(f, "none: the process ended");
        }
        let (first, second) = (self.0 >> 28 & 0xFFF_FFFF, self.0 & 0xFFF_FFFF);
        write!(f, "{} ({first}, {second})", number_of(self.0))
    }
}

impl Display for Call {
    fn fmt(&self, f: &mut Formatter) -> fmt::Result {
        f.pad(match self {
            Call::Read => "read",
            Call::Open => "open",
            Call::Turn(Side::Forward) => "forward",
            Call::Turn(Side::Backward) => "backward",
            Call::Area => "area",
            Call::Route => "route",
        })
    }
}

/// A slice to be printed in brackets, cut off if it is long.
fn listed(words: &[u32]) -> String {
    let shown: Vec<String> = words.iter().take(120).map(u32::to_string).collect();
    let rest = words.len() - shown.len();
    let more = if rest > 0 {
        format!(" and {rest} more")
    } else {
        String::new()
    };
    format!("[{}{more}]", shown.join(" "))
}

/// A text to be printed in quotes, cut off if it is long.
fn quoted(text: &[u8]) -> String {
    let shown = text[..text.len().min(300)].escape_ascii();
    let more = if text.len() > 300 { ".." } else { "" };
    format!("\"{shown}\"{more} of {} bytes", text.len())
}

impl Display for Input {
    fn fmt(&self, f: &mut Formatter) -> fmt::Result {
        write!(f, "{}", self.call)?;
        if self.call == Call::Read {
            let (text, room) = (quoted(&self.text), self.map.len());
            return write!(f, " of {text} into {room} words");
        }
        let order = self.order;
        write!(f, " n {} m {} map {}", self.n, self.m, listed(&self.map))?;
        match self.call {
            Call::Open => write!(f, " {order:?} bench of {} words", self.bench.len()),
            Call::Area => {
                let (locality, room) = (self.locality, self.mask.len());
                let bench = listed(&self.bench);
                write!(f, " bench {bench} locality {locality} mask of {room} bytes")
            }
            Call::Route => {
                let (crossing, room) = (self.crossing, self.route.len());
                let bench = listed(&self.bench);
                write!(
                    f,
                    " bench {bench} crossing {crossing} buffer of {room} words"
                )
            }
            _ => write!(f, " bench {}", listed(&self.bench)),
        }
    }
}

/// How often a call was compared, by the number of refusal it met, 0 if it wasn't refused.
pub type Tally = BTreeMap<u32, u64>;

/// Who is compared with the reference.
pub trait Subject {
    fn perform(&mut self, input: &Input) -> Outcome;
    /// The program's output for its arguments and the text on standard input.
    fn booklet(&mut self, arguments: &[Vec<u8>], text: &[u8]) -> Vec<u8>;
}

impl Subject for &'static Calls {
    fn perform(&mut self, input: &Input) -> Outcome {
        Outcome::of(self, input)
    }

    fn booklet(&mut self, arguments: &[Vec<u8>], text: &[u8]) -> Vec<u8> {
        (self.booklet)(arguments, text)
    }
}

/// A wrong variant of the reference, by its name.
pub type Variant = (&'static str, &'static Calls);

struct Difference {
    size: usize,
    words: String,
}

/// A run of the comparison: who is compared with whom, until when, and what has come of it.
pub struct Comparison {
    subject: Box<dyn Subject>,
    reference: &'static Calls,
    /// Variants not found yet.
    wrong: Vec<Variant>,
    end: Instant,
    tallies: BTreeMap<Call, Tally>,
    pub programs: u64,
    pub schedules: u64,
    difference: Option<Difference>,
}

impl Comparison {
    pub fn new(
        subject: impl Subject + 'static,
        reference: &'static Calls,
        wrong: &[Variant],
        bound: Duration,
    ) -> Comparison {
        Comparison {
            subject: Box::new(subject),
            reference,
            wrong: wrong.to_vec(),
            end: Instant::now() + bound,
            tallies: BTreeMap::new(),
            programs: 0,
            schedules: 0,
            difference: None,
        }
    }

    /// Compares one call and gives what the library makes of it.
    pub fn compare(&mut self, input: &Input) -> Outcome {
        let outcome = self.subject.perform(input);
        let due = Outcome::of(self.reference, input);
        let tally = self.tallies.entry(input.call).or_default();
        *tally.entry(number_of(due.answer)).or_default() += 1;
        if outcome != due {
            self.differ(input.size(), || {
                format!("{input}: {}", outcome.difference(&due))
            });
        }
        let unfound = |(_, calls): &Variant| Outcome::of(calls, input) == outcome;
        self.wrong.retain(unfound);
        outcome
    }

    pub fn compare_program(&mut self, arguments: &[Vec<u8>], text: &[u8]) {
        let output = self.subject.booklet(arguments, text);
        let due = (self.reference.booklet)(arguments, text);
        self.programs += 1;
        if output != due {
            self.differ(text.len(), || {
                let arguments = quoted(&arguments.join(&b' '));
                let [text, output, due] = [text, &output, &due].map(quoted);
                format!("program with {arguments} on {text}: prints {output}, not {due}")
            });
        }
        let unfound = |(_, calls): &Variant| (calls.booklet)(arguments, text) == output;
        self.wrong.retain(unfound);
    }

    /// Holds what a call gave against what the definitions give.
    pub fn expect<T: PartialEq + Debug>(&mut self, input: &Input, what: &str, is: T, due: T) {
        if is != due {
            self.differ(input.size(), || {
                format!("{input}: {what} is {is:?}, by the definitions {due:?}")
            });
        }
    }

    /// The same for a slice, of which it names the first word that differs.
    pub fn expect_words<T>(&mut self, input: &Input, what: &str, is: &[T], due: &[T])
    where
        T: PartialEq + Debug,
    {
        if let Some(place) = first_difference(is, due) {
            let what = format!("{what}[{place}]");
            self.expect(input, &what, &is[place], &due[place]);
        }
    }

    /// Keeps the smallest input that makes a difference.
    fn differ(&mut self, size: usize, words: impl FnOnce() -> String) {
        if self
            .difference
            .as_ref()
            .is_none_or(|known| size < known.size)
        {
            let words = words();
            self.difference = Some(Difference { size, words });
        }
    }

    pub fn difference(&self) -> Option<&str> {
        self.difference.as_ref().map(|known| known.words.as_str())
    }

    pub fn differs(&self) -> bool {
        self.difference.is_some()
    }

    pub fn is_late(&self) -> bool {
        Instant::now() >= self.end
    }

    /// The names of the wrong variants that no input has told from the library.
    pub fn unfound(&self) -> Vec<&'static str> {
        self.wrong.iter().map(|&(name, _)| name).collect()
    }

    pub fn tallies(&self) -> &BTreeMap<Call, Tally> {
        &self.tallies
    }

    /// The first number of refusal that a call can give and that was never met.
    pub fn unmet(&self) -> Option<(Call, u32)> {
        let met = |call, number| {
            let tally = self.tallies.get(&call);
            tally.is_some_and(|tally| tally.contains_key(number))
        };
        NUMBERS.iter().find_map(|&(call, numbers)| {
            let unmet = numbers.iter().find(|number| !met(call, number))?;
            Some((call, *unmet))
        })
    }
}
