//! The trail's bytes: every way to be bad, and its offset.

use referee::text;
use referee::trail::{output, LIMIT};

/// Version, first record (first value 7, one parent), one event: a load miss at node 1.
const FIRST: [u8; 12] = [1, 0, 9, 0, 0, 0, 0, 0, 0, 0, 7, 0];
const EVENT: [u8; 13] = [0, 11, 3, 1, 0, 0, 0, 0, 0, 0, 0, 0, 0];

fn with(tail: &[u8]) -> Vec<u8> {
    [&FIRST[..], tail].concat()
}

#[test]
fn good() {
    assert_eq!(output(&FIRST), "end TT N\n");
    assert_eq!(output(&with(&EVENT)), "1 3 1 0 0\nend TT N\n");
}

#[test]
fn version() {
    assert_eq!(output(&[]), "bad 0\n");
    assert_eq!(output(&[0]), "bad 0\n");
    let mut bytes = with(&EVENT);
    bytes[0] = 2;
    assert_eq!(output(&bytes), "bad 0\n");
}

#[test]
fn first_record() {
    for length in 1..FIRST.len() {
        assert_eq!(output(&FIRST[..length]), "bad 1\n", "cut to {length} bytes");
    }
    for length in [0, 1, 8, 24, 256 + 9] {
        let [high, low] = u16::to_be_bytes(length);
        let bytes = [&[1, high, low][..], &[0; 300]].concat();
        assert_eq!(output(&bytes), "bad 1\n", "length {length}");
    }
    let mut bytes = with(&EVENT);
    bytes[11] = 1;
    assert_eq!(output(&bytes), "bad 1\n", "node 1 is its own parent");
}

#[test]
fn sixteen_nodes() {
    let bytes = [&[1, 0, 23][..], &[0; 23]].concat();
    assert_eq!(output(&bytes), format!("end TT{}\n", " N".repeat(15)));
}

#[test]
fn events() {
    for length in 1..EVENT.len() {
        let bytes = with(&[&EVENT, &EVENT[..length]].concat());
        assert_eq!(
            output(&bytes),
            "1 3 1 0 0\nbad 25\n",
            "cut to {length} bytes"
        );
    }
    for length in [0, 10, 12, 256 + 11] {
        let [high, low] = u16::to_be_bytes(length);
        let bytes = with(&[&EVENT[..], &[high, low], &[0; 300]].concat());
        assert_eq!(output(&bytes), "1 3 1 0 0\nbad 25\n", "length {length}");
    }
}

/// A trail of refused events; with 6 nodes the 5,040th ends at the limit.
fn long(parents: &str, events: usize) -> Vec<u8> {
    let text = format!("tree {parents} first 7\n{}", "load 0\n".repeat(events));
    text::to_bytes(&text).expect("the text can be parsed")
}

/// The last line and how many came before it.
fn ending(input: &[u8]) -> (usize, String) {
    let output = output(input);
    let last = output.lines().last().expect("there is a line");
    (output.lines().count() - 1, last.to_string())
}

#[test]
fn limit() {
    let whole = long("0 0 0 0 0", 5040);
    assert_eq!(whole.len(), LIMIT);
    assert_eq!(ending(&whole), (5040, "end TT N N N N N".to_string()));
    for more in [&[0][..], &[0, 11], &EVENT] {
        let bytes = [&whole[..], more].concat();
        assert_eq!(ending(&bytes), (5040, "bad 65536".to_string()));
    }
}

#[test]
fn crossing_the_limit() {
    // With 5 nodes the next event begins one byte before the limit, with 4 nodes two bytes.
    for (parents, offset) in [("0 0 0 0", 65_535), ("0 0 0", 65_534), ("0", 65_532)] {
        let whole = long(parents, 5040);
        assert_eq!(whole.len(), offset);
        assert!(ending(&whole).1.starts_with("end"));
        let bytes = [&whole[..], &EVENT].concat();
        let bad = format!("bad {offset}");
        for length in offset + 1..=bytes.len() {
            assert_eq!(ending(&bytes[..length]), (5040, bad.clone()));
        }
    }
    let text = format!("tree 0 first 7\n{}", "load 0\n".repeat(5041));
    let error = text::to_bytes(&text).unwrap_err();
    assert_eq!(error.line, 5042);
}
