//! The byte formats of docs/FORMAT.md, and where `answer` ends.

use crate::common::{after, NODE_2_ASKS_WHILE_NODE_1_IS_DIRTY};
use referee::answer::{answers, Request, ANSWER_BYTES};
use referee::event::Event;
use referee::record::{Record, RECORD_BYTES};
use referee::step::{step, Answer};

fn request(tests_number_2: bool) -> Request {
    Request::Step {
        record: Box::new(after(NODE_2_ASKS_WHILE_NODE_1_IS_DIRTY).to_record()),
        event: Event {
            kind: 8,
            node: 0,
            other: 1,
            value: 0,
        },
        tests_number_2,
    }
}

#[test]
fn sizes() {
    assert_eq!(RECORD_BYTES, 1393);
    assert_eq!(ANSWER_BYTES, 1402);
    assert_eq!(request(true).to_bytes().len(), 1 + 1393 + 11);
}

#[test]
fn places_of_fields() {
    let mut bytes = Vec::new();
    after(NODE_2_ASKS_WHILE_NODE_1_IS_DIRTY)
        .to_record()
        .write_to(&mut bytes);
    assert_eq!(bytes.len(), RECORD_BYTES);
    assert_eq!(bytes[0], 3, "count");
    assert_eq!(bytes[17..20], [2, 2, 0], "rights");
    assert_eq!(bytes[33..36], [0, 2, 0], "the root's entries");
    assert_eq!(bytes[33 + 256..][..3], [0, 1, 0], "the root's to-probe");
    let nodes = 33 + 3 * 256;
    let node_1 = [1, 0, 0, 0, 0, 0, 0, 0, 9, 0, 0, 0, 0, 0, 0];
    assert_eq!(bytes[nodes + 15..][..15], node_1);
    assert_eq!(
        bytes[nodes + 9..][..6],
        [1, 1, 2, 0, 0, 0],
        "the root's main transaction"
    );
    assert_eq!(
        Record::from_bytes(&bytes).map(|record| record.count),
        Some(3)
    );
}

#[test]
fn requests_come_back() {
    for request in [
        request(true),
        request(false),
        Request::Reset {
            count: 3,
            parents: [9; 16],
            first_value: 7,
        },
    ] {
        let mut bytes = request.to_bytes();
        bytes.push(77);
        let (back, rest) = Request::split_first(&bytes).expect("a whole request");
        assert_eq!((back, rest), (request, &[77][..]));
    }
}

#[test]
fn answer_ends_where_it_should() {
    let whole = request(true).to_bytes();
    let one = answers(&whole).expect("decided");
    assert_eq!(one.len(), ANSWER_BYTES);
    let answer = Answer::from_bytes(&one).expect("a whole answer");
    let Request::Step { record, event, .. } = request(true) else {
        unreachable!("a step");
    };
    assert_eq!(answer, step(&record, &event));
    assert_eq!(answers(&[]), Some(Vec::new()));

    let cut = &whole[..whole.len() - 1];
    let mut other_first_byte = whole.clone();
    other_first_byte[0] = 4;
    let mut bad_flag = whole.clone();
    bad_flag[1 + 33 + 256] = 2;
    for damaged in [cut, &other_first_byte, &bad_flag] {
        let input = [&whole, damaged].concat();
        assert_eq!(answers(&input), Some(one.clone()));
    }
}
