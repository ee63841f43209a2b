//! What a need looks at, and what an effect acts by.

use crate::codes::{Choice, Entry, Phase, Purpose, Rights};
use crate::configuration::Configuration;
use crate::link::Link;
use crate::node::{Name, Node};

/// The node, other and value of an event, once number 3 has let it pass.
#[derive(Clone, Copy, Debug, PartialEq, Eq)]
pub struct Act {
    pub node: usize,
    pub other: usize,
    pub value: u64,
}

/// An act on a configuration.
pub struct Scene<'a> {
    pub configuration: &'a Configuration,
    pub act: Act,
}

impl Scene<'_> {
    pub fn node(&self) -> &Node {
        &self.configuration.nodes[self.act.node]
    }

    pub fn name(&self) -> Name {
        self.node().name()
    }

    pub fn rights(&self) -> Rights {
        self.node().rights
    }

    pub fn phase(&self) -> Phase {
        self.node().phase
    }

    pub fn purpose(&self) -> Option<Purpose> {
        self.node().purpose
    }

    pub fn probe_idle(&self) -> bool {
        self.node().probe.is_none()
    }

    pub fn release_idle(&self) -> bool {
        self.node().release.is_none()
    }

    /// The node's own link.
    pub fn link(&self) -> &Link {
        &self.configuration.links[self.act.node]
    }

    /// The link of the child that "other" names.
    pub fn child_link(&self) -> &Link {
        &self.configuration.links[self.act.other]
    }

    /// The entry of the child that "other" names.
    pub fn child_entry(&self) -> Entry {
        self.node().entries[self.act.other]
    }

    /// The link of the requester. Number 2 sees to it that there is one in Give and in Await.
    pub fn requester_link(&self) -> Option<&Link> {
        let requester = self.node().requester?;
        Some(&self.configuration.links[requester])
    }

    /// The link of the child to acknowledge, where the release is open.
    pub fn release_link(&self) -> Option<&Link> {
        let child = self.node().release?;
        Some(&self.configuration.links[child])
    }
}

impl Act {
    /// The "other" of kind 14.
    pub fn choice(&self) -> Choice {
        let code = u8::try_from(self.other).ok();
        code.and_then(Choice::from_code)
            .expect("number 3 lets a choice pass")
    }
}
