//! Kinds 12 to 15: a Grant is sent to the requester, taken there, and confirmed.

use super::rule::{load_or_store, need, Rule, ANY_PURPOSE};
use super::scene::Scene;
use crate::codes::{Choice, Confirmation, Entry, Phase, Purpose, Rights};
use crate::link::Down;
use crate::node::{Name, Node};

/// Wait, probe idle; load: N with GrantDataB or GrantDataT; store: B with GrantT or N with GrantDataT | empties D; B
/// for GrantDataB, else Tip; clean; data installed; Confirm
pub const TAKE_GRANT: Rule = Rule {
    needs: &[
        need("Wait", |s| s.phase() == Phase::Wait),
        need("probe idle", |s| s.probe_idle()),
    ],
    by_purpose: load_or_store(
        &[need("load: N with GrantDataB or GrantDataT", |s| {
            match s.link().d {
                Some(Down::GrantDataB(_) | Down::GrantDataT(_)) => s.rights() == Rights::N,
                Some(Down::GrantT | Down::ReleaseAck) | None => false,
            }
        })],
        &[need(
            "store: B with GrantT or N with GrantDataT",
            |s| match s.link().d {
                Some(Down::GrantT) => s.rights() == Rights::B,
                Some(Down::GrantDataT(_)) => s.rights() == Rights::N,
                Some(Down::GrantDataB(_) | Down::ReleaseAck) | None => false,
            },
        )],
    ),
    effect: |configuration, act| {
        let node = &mut configuration.nodes[act.node];
        let grant = configuration.links[act.node].d.take();
        node.rights = match grant {
            Some(Down::GrantDataB(_)) => Rights::B,
            Some(Down::GrantT | Down::GrantDataT(_)) => Rights::Tip,
            Some(Down::ReleaseAck) | None => unreachable!("D holds a Grant"),
        };
        node.dirty = false;
        if let Some(value) = grant.and_then(Down::data) {
            node.value = value;
        }
        node.phase = Phase::Confirm;
    },
};

/// Confirm, E empty | a leaf goes Idle, another Give
pub const SEND_GRANT_ACK: Rule = Rule {
    needs: &[
        need("Confirm", |s| s.phase() == Phase::Confirm),
        need("E empty", |s| s.link().e.is_none()),
    ],
    by_purpose: ANY_PURPOSE,
    effect: |configuration, act| {
        configuration.links[act.node].e = Some(Confirmation::GrantAck);
        let leaf = configuration.tree.is_leaf(act.node);
        let node = &mut configuration.nodes[act.node];
        if leaf {
            node.go_idle();
        } else {
            node.phase = Phase::Give;
        }
    },
};

/// Give, requester's D empty; load 0: named B, TT, TB; load 1: TT; store 1: Tip, other entries None, the requester's
/// not Trunk | load 0: GrantDataB, entry Branch; load 1: GrantDataT, Trunk; store: GrantT if entry Branch, else
/// GrantDataT, then Trunk; Await
pub const SEND_GRANT: Rule = Rule {
    needs: &[
        need("Give", |s| s.phase() == Phase::Give),
        need("requester's D empty", |s| {
            s.requester_link().is_none_or(|link| link.d.is_none())
        }),
    ],
    by_purpose: load_or_store(
        &[
            need("load 0: named B, TT or TB", |s| {
                if_shared(s, |s| s.name().is_readable())
            }),
            need("load 1: named TT", |s| if_sole(s, |s| s.name() == Name::TT)),
        ],
        &[
            need("store: other is 1 (sole)", |s| if_shared(s, |_| false)),
            need("store 1: Tip", |s| {
                if_sole(s, |s| s.rights() == Rights::Tip)
            }),
            need("store 1: other entries None", |s| {
                if_sole(s, |s| others_none(s.node()))
            }),
            need("store 1: the requester's entry not Trunk", |s| {
                if_sole(s, |s| requester_entry(s.node()) != Some(Entry::Trunk))
            }),
        ],
    ),
    effect: |configuration, act| {
        let node = &mut configuration.nodes[act.node];
        let requester = node.requester.expect("Give has a requester");
        let (grant, entry) = grant(node, act.choice());
        node.entries[requester] = entry;
        configuration.links[requester].d = Some(grant);
        node.phase = Phase::Await;
    },
};

/// A need of choice 0.
fn if_shared(scene: &Scene, need: fn(&Scene) -> bool) -> bool {
    match scene.act.choice() {
        Choice::Shared => need(scene),
        Choice::Sole => true,
    }
}

/// A need of choice 1.
fn if_sole(scene: &Scene, need: fn(&Scene) -> bool) -> bool {
    match scene.act.choice() {
        Choice::Shared => true,
        Choice::Sole => need(scene),
    }
}

fn requester_entry(node: &Node) -> Option<Entry> {
    node.requester.map(|child| node.entries[child])
}

/// The entries of all but the requester are None.
fn others_none(node: &Node) -> bool {
    let mut others = node.not_none();
    if let Some(requester) = node.requester {
        others[requester] = false;
    }
    !others.contains(&true)
}

/// The message that goes to the requester, and its new entry.
fn grant(node: &Node, choice: Choice) -> (Down, Entry) {
    match node.purpose {
        Some(Purpose::Load) => match choice {
            Choice::Shared => (Down::GrantDataB(node.value), Entry::Branch),
            Choice::Sole => (Down::GrantDataT(node.value), Entry::Trunk),
        },
        Some(Purpose::Store) => match requester_entry(node) {
            Some(Entry::Branch) => (Down::GrantT, Entry::Trunk),
            Some(Entry::None | Entry::Trunk) | None => (Down::GrantDataT(node.value), Entry::Trunk),
        },
        Some(Purpose::Evict) | None => unreachable!("Give is for load or store"),
    }
}

/// Await, requester's E full | empties E; Idle
pub const TAKE_GRANT_ACK: Rule = Rule {
    needs: &[
        need("Await", |s| s.phase() == Phase::Await),
        need("requester's E full", |s| {
            s.requester_link().is_none_or(|link| link.e.is_some())
        }),
    ],
    by_purpose: ANY_PURPOSE,
    effect: |configuration, act| {
        let node = &mut configuration.nodes[act.node];
        let requester = node.requester.expect("Await has a requester");
        configuration.links[requester].e = None;
        node.go_idle();
    },
};
