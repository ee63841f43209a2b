//! The event table of document 01: a kind is one row.

use crate::lists::coded;
use crate::rules::{acquire, evict, grant, leaf, probe, Rule};
use crate::tree::Tree;

/// One row of the table.
pub struct Row {
    pub name: &'static str,
    pub place: Place,
    pub other: Other,
    pub value: Value,
    pub answers: Answers,
    pub rule: &'static Rule,
}

/// Where a kind may happen.
#[derive(Clone, Copy, Debug, PartialEq, Eq)]
pub enum Place {
    Leaf,
    NotRoot,
    NotLeaf,
    Anywhere,
}

/// What "other" is for a kind.
#[derive(Clone, Copy, Debug, PartialEq, Eq)]
pub enum Other {
    Child(Way),
    Choice,
    Zero,
}

/// Which way the message goes between the node and the child.
#[derive(Clone, Copy, Debug, PartialEq, Eq)]
pub enum Way {
    From,
    To,
}

/// What the value is for a kind.
#[derive(Clone, Copy, Debug, PartialEq, Eq)]
pub enum Value {
    Stored,
    Zero,
}

/// The answer value of an accepted event.
#[derive(Clone, Copy, Debug, PartialEq, Eq)]
pub enum Answers {
    TheValue,
    Zero,
}

impl Place {
    pub fn allows(self, tree: &Tree, node: usize) -> bool {
        match self {
            Place::Leaf => tree.is_leaf(node),
            Place::NotRoot => node != 0,
            Place::NotLeaf => !tree.is_leaf(node),
            Place::Anywhere => true,
        }
    }

    /// Whether number 4 names the kinds of this place.
    pub fn is_judged(self) -> bool {
        match self {
            Place::Leaf | Place::NotRoot | Place::NotLeaf => true,
            Place::Anywhere => false,
        }
    }
}

/// The kinds and their rows, so that a new kind is one line. Numbers may have gaps.
macro_rules! kinds {
    ($(
        $number:literal $kind:ident $name:literal,
        $place:ident, $other:ident $(($way:ident))?, $value:ident, $answers:ident, $rule:path;
    )+) => {
        coded! {
            /// The kinds of event, in the order of the event table.
            Kind { $($kind = $number),+ }
        }

        impl Kind {
            pub fn row(self) -> &'static Row {
                match self {
                    $(Kind::$kind => &Row {
                        name: $name,
                        place: Place::$place,
                        other: Other::$other $((Way::$way))?,
                        value: Value::$value,
                        answers: Answers::$answers,
                        rule: &$rule,
                    },)+
                }
            }
        }
    };
}

// number, kind, name; then place, other, value, answer value, and the needs with the effect.
kinds! {
    1  Load           "load",            Leaf,     Zero,        Zero,   TheValue, leaf::LOAD;
    2  Store          "store",           Leaf,     Zero,        Stored, Zero,     leaf::STORE;
    3  LoadMiss       "load miss",       Leaf,     Zero,        Zero,   Zero,     leaf::LOAD_MISS;
    4  StoreMiss      "store miss",      Leaf,     Zero,        Zero,   Zero,     leaf::STORE_MISS;
    5  Evict          "evict",           NotRoot,  Zero,        Zero,   Zero,     evict::EVICT;
    6  SendAcquire    "send Acquire",    NotRoot,  Zero,        Zero,   Zero,     acquire::SEND_ACQUIRE;
    7  TakeAcquire    "take Acquire",    Anywhere, Child(From), Zero,   Zero,     acquire::TAKE_ACQUIRE;
    8  SendProbe      "send Probe",      Anywhere, Child(To),   Zero,   Zero,     probe::SEND_PROBE;
    9  TakeProbe      "take Probe",      NotRoot,  Zero,        Zero,   Zero,     probe::TAKE_PROBE;
    10 SendProbeAck   "send ProbeAck",   NotRoot,  Zero,        Zero,   Zero,     probe::SEND_PROBE_ACK;
    11 TakeProbeAck   "take ProbeAck",   Anywhere, Child(From), Zero,   Zero,     probe::TAKE_PROBE_ACK;
    12 TakeGrant      "take Grant",      NotRoot,  Zero,        Zero,   Zero,     grant::TAKE_GRANT;
    13 SendGrantAck   "send GrantAck",   NotRoot,  Zero,        Zero,   Zero,     grant::SEND_GRANT_ACK;
    14 SendGrant      "send Grant",      NotLeaf,  Choice,      Zero,   Zero,     grant::SEND_GRANT;
    15 TakeGrantAck   "take GrantAck",   NotLeaf,  Zero,        Zero,   Zero,     grant::TAKE_GRANT_ACK;
    16 SendRelease    "send Release",    NotRoot,  Zero,        Zero,   Zero,     evict::SEND_RELEASE;
    17 TakeRelease    "take Release",    Anywhere, Child(From), Zero,   Zero,     evict::TAKE_RELEASE;
    18 SendReleaseAck "send ReleaseAck", NotLeaf,  Zero,        Zero,   Zero,     evict::SEND_RELEASE_ACK;
    19 TakeReleaseAck "take ReleaseAck", NotRoot,  Zero,        Zero,   Zero,     evict::TAKE_RELEASE_ACK;
}
