//! "Errors a reader of the tables makes", none of which the model makes.

use crate::common::{after, granted, number, NODE_2_ASKS_WHILE_NODE_1_IS_DIRTY};
use referee::codes::{Entry, Phase, Rights};
use referee::link::{Down, Up};
use referee::node::Name;

/// Nodes 1 and 2 are in B, and both have sent AcquireU.
fn both_upgrade() -> String {
    let shared = |child| granted("load-miss", child, "shared");
    format!(
        "tree 0 0 first 7
        {}
        {}
        store-miss 1
        send-acquire 1
        store-miss 2
        send-acquire 2
        take-acquire 0 from 1
        send-probe 0 to 2",
        shared(1),
        shared(2)
    )
}

#[test]
fn no_probe_ack_while_awaiting_release_ack() {
    let leaving = after(&format!(
        "{NODE_2_ASKS_WHILE_NODE_1_IS_DIRTY}
        evict 1
        send-release 1
        send-probe 0 to 1
        take-release 0 from 1
        send-release-ack 0
        take-probe 1"
    ));
    assert_eq!(leaving.nodes[1].phase, Phase::Leaving);
    assert_eq!(
        leaving.links[1].c, None,
        "C is empty, and still it has to wait"
    );
    assert_eq!(number(&leaving, [10, 1, 0], 0), 5);
}

#[test]
fn a_release_is_not_the_probe_ack() {
    let released = after(&format!(
        "{NODE_2_ASKS_WHILE_NODE_1_IS_DIRTY}
        send-probe 0 to 1
        evict 1
        send-release 1
        take-release 0 from 1"
    ));
    assert!(
        released.nodes[0].pending[1],
        "the probe is still to be answered"
    );
    assert_eq!(released.nodes[0].phase, Phase::Clear);
    assert_eq!(number(&released, [14, 0, 0], 0), 5);
}

#[test]
fn a_probe_is_served_in_wait() {
    let both_upgrade = both_upgrade();
    let waiting = after(&both_upgrade);
    assert_eq!(waiting.nodes[2].phase, Phase::Wait);
    assert_eq!(number(&waiting, [9, 2, 0], 0), 0);
    let probed = after(&format!("{both_upgrade}\ntake-probe 2\nsend-probe-ack 2"));
    assert_eq!(
        (probed.nodes[2].name(), probed.nodes[2].phase),
        (Name::N, Phase::Wait)
    );
    let kept = Rights::N;
    assert_eq!(probed.links[2].c, Some(Up::ProbeAck { kept, data: None }));
}

#[test]
fn an_upgrade_without_a_copy_gets_data() {
    let first_granted = format!(
        "{}
        take-probe 2
        send-probe-ack 2
        take-probe-ack 0 from 2
        send-grant 0 sole",
        both_upgrade()
    );
    assert_eq!(after(&first_granted).links[1].d, Some(Down::GrantT));
    let second_granted = after(&format!(
        "{first_granted}
        take-grant 1
        send-grant-ack 1
        take-grant-ack 0
        store 1 value 11
        take-acquire 0 from 2
        send-probe 0 to 1
        take-probe 1
        send-probe-ack 1
        take-probe-ack 0 from 1
        send-grant 0 sole"
    ));
    assert_eq!(second_granted.links[2].d, Some(Down::GrantDataT(11)));
    assert_eq!(number(&second_granted, [12, 2, 0], 0), 0);
}

#[test]
fn dirty_data_goes_up_when_tt_is_probed_down_to_b() {
    let answered = format!(
        "{NODE_2_ASKS_WHILE_NODE_1_IS_DIRTY}
        send-probe 0 to 1
        take-probe 1
        send-probe-ack 1"
    );
    let probed = after(&answered);
    let node = &probed.nodes[1];
    assert_eq!((node.name(), node.dirty, node.value), (Name::B, false, 9));
    let message = Up::ProbeAck {
        kept: Rights::B,
        data: Some(9),
    };
    assert_eq!(probed.links[1].c, Some(message));
    let taken = after(&format!("{answered}\ntake-probe-ack 0 from 1"));
    let root = &taken.nodes[0];
    assert_eq!((root.name(), root.dirty, root.value), (Name::TB, true, 9));
    assert_eq!((root.entries[1], root.phase), (Entry::Branch, Phase::Give));
}
