//! A node: its rights, its value, what it knows of its children, its three transactions and its two sets.

use crate::codes::{Cap, Entry, Phase, Purpose, Rights};
use crate::tree::NODES;
use std::fmt;

/// A set of children.
pub type Set = [bool; NODES];

#[derive(Clone, Copy, Debug, PartialEq, Eq)]
pub struct Node {
    pub rights: Rights,
    pub dirty: bool,
    pub value: u64,
    pub entries: [Entry; NODES],
    pub phase: Phase,
    pub purpose: Option<Purpose>,
    pub requester: Option<usize>,
    /// The open probe's cap.
    pub probe: Option<Cap>,
    /// The child to acknowledge.
    pub release: Option<usize>,
    pub to_probe: Set,
    pub pending: Set,
}

/// What a node is called.
#[derive(Clone, Copy, Debug, PartialEq, Eq)]
pub enum Name {
    N,
    B,
    TT,
    TB,
    T,
}

impl fmt::Display for Name {
    fn fmt(&self, f: &mut fmt::Formatter) -> fmt::Result {
        write!(f, "{self:?}")
    }
}

impl Name {
    /// Named B, TT or TB.
    pub fn is_readable(self) -> bool {
        match self {
            Name::B | Name::TT | Name::TB => true,
            Name::N | Name::T => false,
        }
    }
}

impl Node {
    /// A node with these rights and this value, clean, with everything else idle and empty.
    pub fn quiet(rights: Rights, value: u64) -> Node {
        Node {
            rights,
            dirty: false,
            value,
            entries: [Entry::None; NODES],
            phase: Phase::Idle,
            purpose: None,
            requester: None,
            probe: None,
            release: None,
            to_probe: [false; NODES],
            pending: [false; NODES],
        }
    }

    /// Its rights, except that Tip is called T with any Trunk entry, else TB with any Branch entry, else TT.
    pub fn name(&self) -> Name {
        match self.rights {
            Rights::N => Name::N,
            Rights::B => Name::B,
            Rights::Tip if self.entries.contains(&Entry::Trunk) => Name::T,
            Rights::Tip if self.entries.contains(&Entry::Branch) => Name::TB,
            Rights::Tip => Name::TT,
        }
    }

    pub fn to_probe_empty(&self) -> bool {
        !self.to_probe.contains(&true)
    }

    pub fn pending_empty(&self) -> bool {
        !self.pending.contains(&true)
    }

    pub fn sets_empty(&self) -> bool {
        self.to_probe_empty() && self.pending_empty()
    }

    /// The children whose entry is Trunk.
    pub fn trunk(&self) -> Set {
        self.entries.map(|entry| entry == Entry::Trunk)
    }

    /// The children whose entry is not None.
    pub fn not_none(&self) -> Set {
        self.entries.map(|entry| entry != Entry::None)
    }

    pub fn entries_none(&self) -> bool {
        !self.not_none().contains(&true)
    }

    /// The value that a Release or a ProbeAck carries: exactly if dirty.
    pub fn dirty_data(&self) -> Option<u64> {
        self.dirty.then_some(self.value)
    }

    /// Rights N always set value 0 and clean.
    pub fn set_rights(&mut self, rights: Rights) {
        self.rights = rights;
        match rights {
            Rights::N => (self.value, self.dirty) = (0, false),
            Rights::B | Rights::Tip => {}
        }
    }

    /// Data from a child: value set, dirty.
    pub fn take_data(&mut self, data: Option<u64>) {
        if let Some(value) = data {
            self.value = value;
            self.dirty = true;
        }
    }

    /// Idle clears purpose and requester.
    pub fn go_idle(&mut self) {
        self.phase = Phase::Idle;
        self.purpose = None;
        self.requester = None;
    }
}
