//! The text form: what it means, what it refuses, and that bytes come back as they were.

use referee::event::Event;
use referee::kinds::Kind;
use referee::text::{event_line, from_bytes, is_bytes, to_bytes};
use referee::trail::Trail;
use referee::tree::Tree;

fn events(text: &str) -> Vec<Event> {
    Trail::read(&to_bytes(text).expect("the text can be parsed")).events
}

fn error(text: &str) -> String {
    to_bytes(text).expect_err("the text is wrong").to_string()
}

#[test]
fn names_and_numbers_are_the_same() {
    let named = "tree 0 first 7
        # a comment

        store 1 value 9   # another
        take-acquire 0 from 1
        send-probe 0 to 1
        take-probe-ack 0 from 1
        take-release 0 from 1
        send-grant 0 shared
        send-grant 0 sole
        14 0 sole
        evict 1
        5 1";
    let numbers = "tree 0 first 7\n2 1 0 9\n7 0 1 0\n8 0 1 0\n11 0 1 0\n17 0 1 0\n14 0 0 0\n14 0 1 0\n14 0 1 0\n5 1 0 0\n5 1 0 0";
    assert_eq!(events(named), events(numbers));
}

#[test]
fn every_event_comes_back() {
    let tree = Tree::of_parents(&[0, 0, 1]).unwrap();
    let mut all = Vec::new();
    for kind in 0..=21 {
        for (node, other, value) in [
            (0, 0, 0),
            (1, 1, 0),
            (0, 2, 0),
            (255, 0, 3),
            (2, 3, u64::MAX),
        ] {
            all.push(Event {
                kind,
                node,
                other,
                value,
            });
        }
    }
    let bytes = Trail::to_bytes(&tree, u64::MAX, &all);
    let text = from_bytes(&bytes).expect("the trail is good");
    assert_eq!(to_bytes(&text), Ok(bytes));
}

#[test]
fn kinds_have_one_word() {
    let event = |kind: &Kind| Event {
        kind: kind.code(),
        node: 1,
        other: 0,
        value: 0,
    };
    let lines: Vec<String> = Kind::ALL
        .iter()
        .map(event)
        .map(|event| event_line(&event))
        .collect();
    assert_eq!(lines[9], "send-probe-ack 1");
    assert_eq!(lines[6], "take-acquire 1 from 0");
    assert_eq!(lines[18], "take-release-ack 1");
}

#[test]
fn errors_name_their_line() {
    assert_eq!(
        error(""),
        "line 1: the text ends without a line such as: tree 0 0 first 7"
    );
    assert_eq!(
        error("# nothing\nload 1"),
        "line 2: the first line is: tree PARENT... first VALUE"
    );
    assert_eq!(
        error("tree 0 2 first 7"),
        "line 1: parent 2 of node 2 isn't smaller than 2"
    );
    assert_eq!(
        error("tree first 7"),
        "line 1: a tree has 1 to 15 parents, those of nodes 1 upward; here are 0"
    );
    assert_eq!(
        error("tree 0 first x"),
        "line 1: first value \"x\" isn't a decimal number of at most 64 bits"
    );
    assert_eq!(
        error("tree 0 first 7\n\nlaod 1"),
        "line 3: no kind is called \"laod\""
    );
    assert_eq!(
        error("tree 0 first 7\nload 256"),
        "line 2: node \"256\" isn't a decimal number of at most 8 bits"
    );
    assert_eq!(
        error("tree 0 first 7\nstore 1"),
        "line 2: kind 2 is written: store NODE value VALUE"
    );
    assert_eq!(
        error("tree 0 first 7\nload"),
        "line 2: kind 1 is written: load NODE"
    );
    assert_eq!(
        error("tree 0 first 7\ntake-acquire 0 to 1"),
        "line 2: kind 7 is written: take-acquire NODE from CHILD"
    );
    assert_eq!(
        error("tree 0 first 7\nsend-grant 0"),
        "line 2: kind 14 is written: send-grant NODE shared, or send-grant NODE sole"
    );
    assert_eq!(
        error("tree 0 first 7\n20 1"),
        "line 2: kind 20 has no name; write the event as four numbers"
    );
}

#[test]
fn bytes_and_text_are_told_apart() {
    assert!(is_bytes(&[1, 0, 9]));
    assert!(is_bytes(&[0]));
    assert!(is_bytes(&[255]));
    assert!(is_bytes(&[]));
    assert!(!is_bytes(b"tree 0 first 7"));
    assert!(!is_bytes(b"# comment"));
    assert!(!is_bytes(b"\n tree"));
}
