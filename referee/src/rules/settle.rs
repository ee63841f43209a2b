//! Settle: the phase of the main transaction once its children need no more probes.

use crate::codes::{Phase, Purpose, Rights};
use crate::configuration::Configuration;
use crate::node::Node;

impl Configuration {
    /// Settle, for a purpose that was there already.
    pub(super) fn settle(&mut self, node: usize) {
        let node = &mut self.nodes[node];
        if node.phase == Phase::Clear && node.sets_empty() {
            node.phase = cleared(node);
        }
    }

    /// Settle, for a new purpose.
    pub(super) fn settle_new(&mut self, node: usize, purpose: Purpose) {
        let node = &mut self.nodes[node];
        node.purpose = Some(purpose);
        node.phase = if node.sets_empty() {
            cleared(node)
        } else {
            Phase::Clear
        };
    }
}

/// The phase once both sets are empty.
fn cleared(node: &Node) -> Phase {
    match node.purpose {
        Some(Purpose::Load) => match node.rights {
            Rights::N => Phase::Ask,
            Rights::B | Rights::Tip => Phase::Give,
        },
        Some(Purpose::Store) => match node.rights {
            Rights::N | Rights::B => Phase::Ask,
            Rights::Tip => Phase::Give,
        },
        Some(Purpose::Evict) => Phase::LetGo,
        None => unreachable!("Clear has a purpose"),
    }
}
