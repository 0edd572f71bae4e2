//! The ten numbers of refusal and their words, which are those of include/sankayop.h.

use std::{error::Error, fmt};

/// Why a call was refused: one of the ten numbers of refusal, which prints as its words.
#[derive(Clone, Copy, Debug, PartialEq, Eq, Hash)]
#[repr(u32)]
pub enum Refusal {
    /// The text breaks the layout.
    Layout = 1,
    /// A count or the text's length is out of range.
    Size,
    /// Lent memory is too short.
    Room,
    /// A crossing that the map does not have.
    Crossing,
    /// A cost, the stretch or the locality is out of range.
    Amount,
    /// The bench is not well shaped for this map; not met after opening.
    Shape,
    /// The trails are not sound; not met after opening.
    Trails,
    /// A half is not done.
    NotDone,
    /// Both halves are done and there is no route.
    NoRoute,
    /// The asked crossing is not in the area.
    Outside,
}

impl Refusal {
    /// All ten, in the order of their numbers.
    pub const ALL: [Refusal; 10] = [
        Refusal::Layout,
        Refusal::Size,
        Refusal::Room,
        Refusal::Crossing,
        Refusal::Amount,
        Refusal::Shape,
        Refusal::Trails,
        Refusal::NotDone,
        Refusal::NoRoute,
        Refusal::Outside,
    ];

    /// The number of the refusal, 1 to 10.
    pub const fn number(self) -> u32 {
        self as u32
    }

    /// The refusal of a number.
    pub fn of(number: u32) -> Option<Refusal> {
        Refusal::ALL
            .into_iter()
            .find(|refusal| refusal.number() == number)
    }

    /// What is wrong.
    pub const fn words(self) -> &'static str {
        match self {
            Refusal::Layout => "the text breaks the layout",
            Refusal::Size => "n not in 1 to 4,096, m above 16,384, or the text longer than 1,048,576 bytes",
            Refusal::Room => "a lent map, bench, mask or route buffer is too short",
            Refusal::Crossing => "a link's end, the start, the target or the asked crossing is not in 1 to n",
            Refusal::Amount => {
                "a cost not in 1 to 65,535, the stretch not in 1,000 to 4,000, or the locality above 268,365,825"
            }
            Refusal::Shape => "the bench is not well shaped for this map",
            Refusal::Trails => "the trails are not sound",
            Refusal::NotDone => "a half is not done",
            Refusal::NoRoute => "both halves are done and there is no route",
            Refusal::Outside => "the asked crossing is not in the area",
        }
    }
}

impl fmt::Display for Refusal {
    fn fmt(&self, f: &mut fmt::Formatter<'_>) -> fmt::Result {
        write!(f, "{}: {}", self.number(), self.words())
    }
}

impl Error for Refusal {}
