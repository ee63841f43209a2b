//! The numbers that a caller may get, and why an event is refused.

use crate::clauses::Clause;
use crate::kinds::Place;
use crate::lists::coded;
use crate::worded;
use std::fmt;

coded! {
    /// The numbers of document 01's table.
    Number {
        Accepted = 0, BadTree = 1, NotAConfiguration = 2, BadEvent = 3, WrongPlace = 4, Needs = 5,
    }
}

/// Why an event is refused.
#[derive(Clone, Debug, PartialEq, Eq)]
pub enum Refusal {
    BadTree,
    NotAConfiguration(Vec<Clause>),
    BadEvent(Fault),
    /// The place where the kind may happen.
    WrongPlace(Place),
    /// The first of the kind's needs that doesn't hold, in the table's words.
    Need(&'static str),
}

worded! {
    /// What is wrong with an event of number 3.
    Fault {
        Kind: "kind not 1..19",
        Node: "node not in the tree",
        Other: "other not as named",
        Value: "value not 0 where it must be",
    }
}

impl Refusal {
    pub fn number(&self) -> Number {
        match self {
            Refusal::BadTree => Number::BadTree,
            Refusal::NotAConfiguration(_) => Number::NotAConfiguration,
            Refusal::BadEvent(_) => Number::BadEvent,
            Refusal::WrongPlace(_) => Number::WrongPlace,
            Refusal::Need(_) => Number::Needs,
        }
    }
}

impl fmt::Display for Refusal {
    fn fmt(&self, f: &mut fmt::Formatter) -> fmt::Result {
        match self {
            Refusal::BadTree => write!(f, "the tree is bad"),
            Refusal::NotAConfiguration(clauses) => {
                let words: Vec<_> = clauses.iter().map(|clause| clause.words()).collect();
                write!(f, "not a configuration: {}", words.join("; "))
            }
            Refusal::BadEvent(fault) => match fault {
                Fault::Kind | Fault::Node | Fault::Value => write!(f, "{}", fault.words()),
                Fault::Other => write!(f, "{} for this kind", fault.words()),
            },
            Refusal::WrongPlace(place) => match place {
                Place::Leaf => write!(f, "this kind doesn't happen at a non-leaf"),
                Place::NotRoot => write!(f, "this kind doesn't happen at the root"),
                Place::NotLeaf => write!(f, "this kind doesn't happen at a leaf"),
                Place::Anywhere => write!(f, "this kind doesn't happen here"),
            },
            Refusal::Need(words) => write!(f, "the kind's needs don't hold; it needs \"{words}\""),
        }
    }
}
