//! Kinds 5 and 16 to 19: an eviction, its Release to the parent, and the acknowledgement.

use super::rule::{need, Rule, ANY_PURPOSE};
use crate::codes::{Entry, Phase, Purpose, Rights};
use crate::link::{Down, Up};

/// not N, all idle, both sets empty | evict; to-probe: all entries not None; settle
pub const EVICT: Rule = Rule {
    needs: &[
        need("not N", |s| s.rights() != Rights::N),
        need("main idle", |s| s.phase() == Phase::Idle),
        need("probe idle", |s| s.probe_idle()),
        need("release idle", |s| s.release_idle()),
        need("to-probe empty", |s| s.node().to_probe_empty()),
        need("pending empty", |s| s.node().pending_empty()),
    ],
    by_purpose: ANY_PURPOSE,
    effect: |configuration, act| {
        let node = &mut configuration.nodes[act.node];
        node.to_probe = node.not_none();
        configuration.settle_new(act.node, Purpose::Evict);
    },
};

/// LetGo, release idle, C empty, entries None, not N | ReleaseData exactly if dirty; rights N; Leaving
pub const SEND_RELEASE: Rule = Rule {
    needs: &[
        need("LetGo", |s| s.phase() == Phase::LetGo),
        need("release idle", |s| s.release_idle()),
        need("C empty", |s| s.link().c.is_none()),
        need("entries None", |s| s.node().entries_none()),
        need("not N", |s| s.rights() != Rights::N),
    ],
    by_purpose: ANY_PURPOSE,
    effect: |configuration, act| {
        let node = &mut configuration.nodes[act.node];
        configuration.links[act.node].c = Some(Up::Release {
            data: node.dirty_data(),
        });
        node.set_rights(Rights::N);
        node.phase = Phase::Leaving;
    },
};

/// C holds one, release idle, entry not None, not in Await for this child; data only from Trunk | empties C; entry
/// None; child leaves to-probe, not pending; data: value set, dirty; child noted; settle
pub const TAKE_RELEASE: Rule = Rule {
    needs: &[
        need("C holds a Release", |s| match s.child_link().c {
            Some(Up::Release { .. }) => true,
            Some(Up::ProbeAck { .. }) | None => false,
        }),
        need("release idle", |s| s.release_idle()),
        need("entry not None", |s| s.child_entry() != Entry::None),
        need("not in Await for this child", |s| {
            !(s.phase() == Phase::Await && s.node().requester == Some(s.act.other))
        }),
        need("data only from Trunk", |s| match s.child_link().c {
            Some(Up::Release { data }) => data.is_none() || s.child_entry() == Entry::Trunk,
            Some(Up::ProbeAck { .. }) | None => true,
        }),
    ],
    by_purpose: ANY_PURPOSE,
    effect: |configuration, act| {
        let node = &mut configuration.nodes[act.node];
        let release = configuration.links[act.other].c.take();
        node.entries[act.other] = Entry::None;
        node.to_probe[act.other] = false;
        node.take_data(release.and_then(Up::data));
        node.release = Some(act.other);
        configuration.settle(act.node);
    },
};

/// release open, child's D empty | closes
pub const SEND_RELEASE_ACK: Rule = Rule {
    needs: &[
        need("release open", |s| !s.release_idle()),
        need("child's D empty", |s| {
            s.release_link().is_none_or(|link| link.d.is_none())
        }),
    ],
    by_purpose: ANY_PURPOSE,
    effect: |configuration, act| {
        let child = configuration.nodes[act.node].release.take();
        let child = child.expect("an open release has a child");
        configuration.links[child].d = Some(Down::ReleaseAck);
    },
};

/// Leaving, D holds it | empties D; Idle
pub const TAKE_RELEASE_ACK: Rule = Rule {
    needs: &[
        need("Leaving", |s| s.phase() == Phase::Leaving),
        need("D holds ReleaseAck", |s| {
            s.link().d == Some(Down::ReleaseAck)
        }),
    ],
    by_purpose: ANY_PURPOSE,
    effect: |configuration, act| {
        configuration.links[act.node].d = None;
        configuration.nodes[act.node].go_idle();
    },
};
