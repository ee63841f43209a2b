//! Kinds 8 to 11: a Probe is sent to a child, taken there, answered, and the answer taken.

use super::rule::{need, Rule, ANY_PURPOSE};
use crate::codes::{Cap, Entry, Phase, Purpose};
use crate::link::Up;
use crate::node::Node;

/// child in to-probe, its B empty | cap: the open probe's, else B for load and N otherwise; moves child to pending
pub const SEND_PROBE: Rule = Rule {
    needs: &[
        need("child in to-probe", |s| s.node().to_probe[s.act.other]),
        need("its B empty", |s| s.child_link().b.is_none()),
    ],
    by_purpose: ANY_PURPOSE,
    effect: |configuration, act| {
        let node = &mut configuration.nodes[act.node];
        configuration.links[act.other].b = Some(cap(node));
        node.to_probe[act.other] = false;
        node.pending[act.other] = true;
    },
};

fn cap(node: &Node) -> Cap {
    node.probe.unwrap_or(match node.purpose {
        Some(Purpose::Load) => Cap::B,
        Some(Purpose::Store | Purpose::Evict) | None => Cap::N,
    })
}

/// B full, probe idle, sets empty, main Idle, Wait or Leaving | empties B, opens; to-probe: Trunk entries for cap B,
/// all not None for cap N
pub const TAKE_PROBE: Rule = Rule {
    needs: &[
        need("B full", |s| s.link().b.is_some()),
        need("probe idle", |s| s.probe_idle()),
        need("to-probe empty", |s| s.node().to_probe_empty()),
        need("pending empty", |s| s.node().pending_empty()),
        need("main Idle, Wait or Leaving", |s| match s.phase() {
            Phase::Idle | Phase::Wait | Phase::Leaving => true,
            Phase::Clear
            | Phase::Ask
            | Phase::Confirm
            | Phase::Give
            | Phase::Await
            | Phase::LetGo => false,
        }),
    ],
    by_purpose: ANY_PURPOSE,
    effect: |configuration, act| {
        let node = &mut configuration.nodes[act.node];
        let cap = configuration.links[act.node].b.take().expect("B is full");
        node.probe = Some(cap);
        node.to_probe = match cap {
            Cap::B => node.trunk(),
            Cap::N => node.not_none(),
        };
    },
};

/// probe open, sets empty, release idle, main not Leaving, C empty; cap N: all entries None; cap B: none Trunk |
/// rights fall to the cap if above it; kept = new rights; carries the value exactly if dirty; becomes clean; closes
pub const SEND_PROBE_ACK: Rule = Rule {
    needs: &[
        need("probe open", |s| !s.probe_idle()),
        need("to-probe empty", |s| s.node().to_probe_empty()),
        need("pending empty", |s| s.node().pending_empty()),
        need("release idle", |s| s.release_idle()),
        need("main not Leaving", |s| s.phase() != Phase::Leaving),
        need("C empty", |s| s.link().c.is_none()),
        need("cap N: all entries None", |s| match s.node().probe {
            Some(Cap::N) => s.node().entries_none(),
            Some(Cap::B) | None => true,
        }),
        need("cap B: none Trunk", |s| match s.node().probe {
            Some(Cap::B) => !s.node().entries.contains(&Entry::Trunk),
            Some(Cap::N) | None => true,
        }),
    ],
    by_purpose: ANY_PURPOSE,
    effect: |configuration, act| {
        let node = &mut configuration.nodes[act.node];
        let cap = node.probe.take().expect("the probe is open");
        let data = node.dirty_data();
        node.set_rights(node.rights.min(cap.rights()));
        node.dirty = false;
        configuration.links[act.node].c = Some(Up::ProbeAck {
            kept: node.rights,
            data,
        });
    },
};

/// C holds one, child pending, kept not above entry; data only from a Trunk entry | empties C; entry becomes kept;
/// data: value set, dirty; leaves pending; settle
pub const TAKE_PROBE_ACK: Rule = Rule {
    needs: &[
        need("C holds a ProbeAck", |s| match s.child_link().c {
            Some(Up::ProbeAck { .. }) => true,
            Some(Up::Release { .. }) | None => false,
        }),
        need("child pending", |s| s.node().pending[s.act.other]),
        need("kept not above entry", |s| match s.child_link().c {
            Some(Up::ProbeAck { kept, .. }) => kept.entry() <= s.child_entry(),
            Some(Up::Release { .. }) | None => true,
        }),
        need("data only from a Trunk entry", |s| match s.child_link().c {
            Some(Up::ProbeAck { data, .. }) => data.is_none() || s.child_entry() == Entry::Trunk,
            Some(Up::Release { .. }) | None => true,
        }),
    ],
    by_purpose: ANY_PURPOSE,
    effect: |configuration, act| {
        let node = &mut configuration.nodes[act.node];
        match configuration.links[act.other].c.take() {
            Some(Up::ProbeAck { kept, data }) => {
                node.entries[act.other] = kept.entry();
                node.take_data(data);
            }
            Some(Up::Release { .. }) | None => unreachable!("C holds a ProbeAck"),
        }
        node.pending[act.other] = false;
        configuration.settle(act.node);
    },
};
