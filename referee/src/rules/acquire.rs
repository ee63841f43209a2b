//! Kinds 6 and 7: an Acquire is sent to the parent and taken there.

use super::rule::{load_or_store, need, Rule, ANY_PURPOSE};
use crate::codes::{Acquire, Entry, Phase, Purpose, Rights};
use crate::node::{Name, Node, Set};
use crate::tree::NODES;

/// Ask, A empty; load: rights N; store: N or B | AcquireB for load, AcquireT from N, AcquireU from B; Wait
pub const SEND_ACQUIRE: Rule = Rule {
    needs: &[
        need("Ask", |s| s.phase() == Phase::Ask),
        need("A empty", |s| s.link().a.is_none()),
    ],
    by_purpose: load_or_store(
        &[need("load: rights N", |s| s.rights() == Rights::N)],
        &[need("store: N or B", |s| match s.rights() {
            Rights::N | Rights::B => true,
            Rights::Tip => false,
        })],
    ),
    effect: |configuration, act| {
        let node = &mut configuration.nodes[act.node];
        configuration.links[act.node].a = Some(acquire(node));
        node.phase = Phase::Wait;
    },
};

fn acquire(node: &Node) -> Acquire {
    match node.purpose {
        Some(Purpose::Load) => Acquire::AcquireB,
        Some(Purpose::Store) => match node.rights {
            Rights::N => Acquire::AcquireT,
            Rights::B => Acquire::AcquireU,
            Rights::Tip => unreachable!("store: N or B"),
        },
        Some(Purpose::Evict) | None => unreachable!("Ask is for load or store"),
    }
}

/// A full, main and probe idle, sets empty; AcquireB/T: child's entry None; AcquireU: not Trunk | empties A, purpose
/// load for B, store for T/U, requester; to-probe: load at T: Trunk entries; load otherwise: none; store: all not
/// None but the requester; settle
pub const TAKE_ACQUIRE: Rule = Rule {
    needs: &[
        need("A full", |s| s.child_link().a.is_some()),
        need("main idle", |s| s.phase() == Phase::Idle),
        need("probe idle", |s| s.probe_idle()),
        need("to-probe empty", |s| s.node().to_probe_empty()),
        need("pending empty", |s| s.node().pending_empty()),
        need(
            "AcquireB or AcquireT: the child's entry None",
            |s| match s.child_link().a {
                Some(Acquire::AcquireB | Acquire::AcquireT) => s.child_entry() == Entry::None,
                Some(Acquire::AcquireU) | None => true,
            },
        ),
        need("AcquireU: the child's entry not Trunk", |s| {
            match s.child_link().a {
                Some(Acquire::AcquireU) => s.child_entry() != Entry::Trunk,
                Some(Acquire::AcquireB | Acquire::AcquireT) | None => true,
            }
        }),
    ],
    by_purpose: ANY_PURPOSE,
    effect: |configuration, act| {
        let child = act.other;
        let acquire = configuration.links[child].a.take().expect("A is full");
        let node = &mut configuration.nodes[act.node];
        node.requester = Some(child);
        let purpose = match acquire {
            Acquire::AcquireB => {
                node.to_probe = in_the_way_of_load(node);
                Purpose::Load
            }
            Acquire::AcquireT | Acquire::AcquireU => {
                node.to_probe = node.not_none();
                node.to_probe[child] = false;
                Purpose::Store
            }
        };
        configuration.settle_new(act.node, purpose);
    },
};

fn in_the_way_of_load(node: &Node) -> Set {
    match node.name() {
        Name::T => node.trunk(),
        Name::N | Name::B | Name::TT | Name::TB => [false; NODES],
    }
}
