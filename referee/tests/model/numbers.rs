//! Numbers 3 to 5, the columns of the event table that decide them, and the first number that applies.

use crate::common::{after, number};
use referee::codes::{Phase, Purpose};
use referee::event::Event;
use referee::kinds::{Kind, Other, Place, Row, Value};
use referee::step::{step, step_without_number_2};

/// The kinds whose row is as asked.
fn kinds_where(wanted: impl Fn(&Row) -> bool) -> Vec<u8> {
    let kinds = Kind::ALL.iter().filter(|kind| wanted(kind.row()));
    kinds.map(|kind| kind.code()).collect()
}

#[test]
fn columns() {
    assert_eq!(kinds_where(|_| true), Vec::from_iter(1..=19));
    assert_eq!(kinds_where(|row| row.place == Place::Leaf), [1, 2, 3, 4]);
    assert_eq!(
        kinds_where(|row| row.place == Place::NotRoot),
        [5, 6, 9, 10, 12, 13, 16, 19]
    );
    assert_eq!(kinds_where(|row| row.place == Place::NotLeaf), [14, 15, 18]);
    assert_eq!(
        kinds_where(|row| matches!(row.other, Other::Child(_))),
        [7, 8, 11, 17]
    );
    assert_eq!(kinds_where(|row| row.other == Other::Choice), [14]);
    assert_eq!(kinds_where(|row| row.value == Value::Stored), [2]);
}

#[test]
fn kinds() {
    let start = after("tree 0 first 7");
    assert_eq!(number(&start, [0, 1, 0], 0), 3);
    assert_eq!(number(&start, [20, 1, 0], 0), 3);
    assert_eq!(number(&start, [255, 1, 0], 0), 3);
    assert_eq!(number(&start, [14, 0, 2], 0), 3);
    assert_eq!(number(&start, [14, 0, 1], 0), 5);
    assert_eq!(number(&start, [14, 0, 0], 0), 5);
}

#[test]
fn nodes_others_and_values() {
    let start = after("tree 0 0 first 7");
    for &kind in Kind::ALL {
        let outside = [kind.code(), 3, 0];
        assert_eq!(
            number(&start, outside, 0),
            3,
            "{kind:?} at a node not in the tree"
        );
        if kind != Kind::Store {
            let with_value = number(&start, [kind.code(), 1, 0], 1);
            assert_eq!(with_value, 3, "{kind:?} with a value");
        }
    }
    assert_eq!(
        number(&start, [3, 1, 1], 0),
        3,
        "other is 0 for a load miss"
    );
    assert_eq!(
        number(&start, [7, 0, 0], 0),
        3,
        "the root is nobody's child"
    );
    assert_eq!(number(&start, [7, 0, 3], 0), 3, "no node 3");
    assert_eq!(number(&start, [7, 1, 2], 0), 3, "a leaf has no child");
    assert_eq!(number(&start, [7, 0, 2], 0), 5);
}

#[test]
fn places() {
    let start = after("tree 0 1 first 7");
    let numbers = |kinds: &[u8], node| {
        let number = |&kind: &u8| number(&start, [kind, node, 0], 0);
        kinds.iter().map(number).collect::<Vec<_>>()
    };
    assert_eq!(numbers(&[1, 2, 3, 4], 0), [4; 4]);
    assert_eq!(numbers(&[1, 2, 3, 4], 1), [4; 4]);
    assert_eq!(numbers(&[1, 2, 3, 4], 2), [5, 5, 0, 0]);
    let below_root = [5, 6, 9, 10, 12, 13, 16, 19];
    assert_eq!(numbers(&below_root, 0), [4; 8]);
    assert_eq!(numbers(&below_root, 1), [5; 8]);
    assert_eq!(numbers(&[14, 15, 18], 2), [4; 3]);
    assert_eq!(numbers(&[14, 15, 18], 1), [5; 3]);
    assert_eq!(numbers(&[14, 15, 18], 0), [5; 3]);
}

/// Number 2 refuses these purposes in these phases. A row that names load and store still refuses them itself.
#[test]
fn needs_hold_for_no_other_purpose() {
    for (phase, event) in [
        (Phase::Ask, [6, 1, 0]),
        (Phase::Wait, [12, 1, 0]),
        (Phase::Give, [14, 0, 0]),
        (Phase::Give, [14, 0, 1]),
    ] {
        let mut configuration = after("tree 0 first 7");
        for purpose in [None, Some(Purpose::Evict)] {
            let node = &mut configuration.nodes[usize::from(event[1])];
            (node.phase, node.purpose) = (phase, purpose);
            assert_eq!(number(&configuration, event, 0), 5, "{event:?} {purpose:?}");
        }
    }
}

#[test]
fn the_first_number_is_given() {
    let bad_event = Event {
        kind: 0,
        node: 0,
        other: 0,
        value: 0,
    };
    // At the root a load miss is out of place, and its needs don't hold either.
    let start = after("tree 0 first 7");
    assert_eq!(number(&start, [3, 0, 0], 1), 3);
    assert_eq!(number(&start, [3, 0, 0], 0), 4);
    let mut record = start.to_record();
    assert_eq!(step(&record, &bad_event).number, 3);
    record.rights[1] = 3;
    let answer = step(&record, &bad_event);
    assert_eq!((answer.number, answer.value), (2, 0));
    assert_eq!(answer.record, record, "unchanged, though bad");
    assert_eq!(step_without_number_2(&record, &bad_event), None);
    record.parents[1] = 1;
    let answer = step(&record, &bad_event);
    assert_eq!((answer.number, answer.value), (1, 0));
    assert_eq!(answer.record, record);
    assert_eq!(step_without_number_2(&record, &bad_event), Some(answer));
}
