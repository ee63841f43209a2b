//! "Both sides of each edge" and the whole case of document 01, line by line.

use crate::common::{after, granted, number, play, NODE_2_ASKS_WHILE_NODE_1_IS_DIRTY};
use referee::codes::{Phase, Rights};
use referee::configuration::Configuration;
use referee::link::Up;
use referee::node::Name;
use referee::record::Record;
use referee::step::{reset, Answer};
use referee::text;
use referee::trail;
use referee::tree::{Tree, NODES};

fn chain() -> [u8; NODES] {
    std::array::from_fn(|node| node.saturating_sub(1) as u8)
}

#[test]
fn whole_case() {
    let events = "4 1 0 0; 6 1 0 0; 7 0 1 0; 14 0 1 0; 12 1 0 0; 13 1 0 0; 15 0 0 0; 2 1 0 9; 1 1 0 0; 3 1 0 0";
    let text = format!("tree 0 first 7\n{}", events.replace("; ", "\n"));
    let bytes = text::to_bytes(&text).unwrap();
    assert_eq!(bytes[..12], [1, 0, 9, 0, 0, 0, 0, 0, 0, 0, 7, 0]);
    assert_eq!(
        trail::output(&bytes),
        "1 4 1 0 0\n2 6 1 0 0\n3 7 0 0 0\n4 14 0 0 0\n5 12 1 0 0\n6 13 1 0 0\n7 15 0 0 0\n\
         8 2 1 0 0\n9 1 1 0 9\n10 3 1 5 0\nend T TT\n"
    );
}

#[test]
fn node_counts() {
    let bad = Answer {
        number: 1,
        value: 0,
        record: Record::default(),
    };
    assert_eq!(reset(0, &chain(), 7), bad);
    assert_eq!(reset(1, &chain(), 7), bad);
    assert_eq!(reset(2, &chain(), 7).number, 0);
    assert_eq!(reset(16, &chain(), 7).number, 0);
    assert_eq!(reset(17, &chain(), 7), bad);
    assert_eq!(reset(255, &chain(), 7), bad);
}

#[test]
fn parent_of_node_3() {
    let parents = |third: u8| std::array::from_fn(|node| if node == 3 { third } else { 0 });
    assert_eq!(reset(4, &parents(2), 7).number, 0);
    assert_eq!(reset(4, &parents(3), 7).number, 1);
    assert_eq!(reset(4, &parents(255), 7).number, 1);
    // Beyond the last node a parent is not looked at.
    assert_eq!(reset(3, &parents(3), 7), reset(3, &[0; NODES], 7));
}

#[test]
fn reset_is_as_said() {
    let tree = Tree::of_parents(&[0, 1]).unwrap();
    let configuration = Configuration::reset(tree, 7);
    assert_eq!(
        configuration.names().collect::<Vec<_>>(),
        [Name::TT, Name::N, Name::N]
    );
    assert_eq!(configuration.nodes[0].value, 7);
    assert!(!configuration.nodes[0].dirty);
    let record = configuration.to_record();
    let mut expected = Record {
        count: 3,
        ..Record::default()
    };
    expected.parents[2] = 1;
    expected.rights[0] = Rights::Tip.code();
    expected.nodes[0].value = 7;
    assert_eq!(record, expected);
}

#[test]
fn stores() {
    let after_load = |choice| {
        after(&format!(
            "tree 0 first 7{}",
            granted("load-miss", 1, choice)
        ))
    };
    let shared = after_load("shared");
    assert_eq!(shared.nodes[1].name(), Name::B);
    assert_eq!(number(&shared, [2, 1, 0], 9), 5);
    let sole = after_load("sole");
    assert_eq!(sole.nodes[1].name(), Name::TT);
    assert_eq!(number(&sole, [2, 1, 0], 9), 0);
}

#[test]
fn late_release() {
    let so_far = format!(
        "{NODE_2_ASKS_WHILE_NODE_1_IS_DIRTY}
        evict 1
        send-release 1
        send-probe 0 to 1
        take-probe 1"
    );
    let probed = after(&so_far);
    assert_eq!(probed.nodes[0].phase, Phase::Clear);
    assert_eq!(probed.links[1].c, Some(Up::Release { data: Some(9) }));
    assert_eq!(
        number(&probed, [10, 1, 0], 0),
        5,
        "the ProbeAck comes too early"
    );

    let released = after(&format!("{so_far}\ntake-release 0 from 1"));
    let root = &released.nodes[0];
    assert_eq!(
        (root.value, root.name(), root.phase),
        (9, Name::TT, Phase::Clear)
    );
    assert_eq!(
        number(&released, [10, 1, 0], 0),
        5,
        "ReleaseAck is still owed"
    );

    let answered = after(&format!(
        "{so_far}
        take-release 0 from 1
        send-release-ack 0
        take-release-ack 1
        send-probe-ack 1"
    ));
    let kept = Rights::N;
    assert_eq!(answered.links[1].c, Some(Up::ProbeAck { kept, data: None }));
    let event = [11, 0, 1];
    assert_eq!(number(&answered, event, 0), 0);
    let given = after(&format!(
        "{so_far}
        take-release 0 from 1
        send-release-ack 0
        take-release-ack 1
        send-probe-ack 1
        take-probe-ack 0 from 1"
    ));
    assert_eq!(given.nodes[0].phase, Phase::Give);
}

#[test]
fn late_release_taken_before_the_probe_is_sent() {
    let released = after(&format!(
        "{NODE_2_ASKS_WHILE_NODE_1_IS_DIRTY}
        evict 1
        send-release 1
        take-release 0 from 1"
    ));
    assert_eq!(released.nodes[0].phase, Phase::Give);
    assert_eq!(number(&released, [8, 0, 1], 0), 5);
}

#[test]
fn a_refused_event_changes_nothing() {
    let played = play("tree 0 first 7\nload 1\nload 0\n0 0 0 0\nstore 1 value 4");
    assert_eq!(played.numbers, [5, 4, 3, 5]);
    assert_eq!(played.configuration, after("tree 0 first 7"));
}
