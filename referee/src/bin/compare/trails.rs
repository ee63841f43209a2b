//! Random trails: good ones, and ones damaged at every kind of place.

use crate::random::Random;
use crate::trees;
use crate::walk::Walk;
use referee::event::Event;
use referee::trail::{write_record, Trail, LIMIT, VERSION};
use referee::tree::Tree;
use referee::worded;

worded! {
    /// What is wrong with a trail.
    Damage {
        None: "good",
        Empty: "missing version",
        WrongVersion: "wrong version",
        FirstMissing: "missing first record",
        FirstLengthCut: "first record: cut short in its length",
        FirstTooShort: "first record: length below 9",
        FirstTooLong: "first record: length above 23",
        FirstCut: "first record: cut short",
        BadTree: "first record: bad tree",
        LengthCut: "event: cut short in its length",
        TooShort: "event: length below 11",
        TooLong: "event: length above 11",
        Cut: "event: cut short",
        EndsAtLimit: "good, and ends at 65,536",
        BeginsAtLimit: "event: begins at 65,536",
        LengthCrossesLimit: "event: its length crosses 65,536",
        CrossesLimit: "event: crosses 65,536",
        CutAtLimit: "event: crosses 65,536, where the input ends",
        GoesOn: "good to the limit, and goes on far beyond",
    }
}

/// How a trail ends that fills the first 65,536 bytes.
#[derive(Clone, Copy)]
enum Ending {
    AtLimit,
    BeginsAtLimit,
    LengthCrossesLimit,
    CrossesLimit,
    CutAtLimit,
    GoesOn,
}

impl Damage {
    pub fn is_long(self) -> bool {
        self.ending().is_some()
    }

    fn ending(self) -> Option<Ending> {
        match self {
            Damage::EndsAtLimit => Some(Ending::AtLimit),
            Damage::BeginsAtLimit => Some(Ending::BeginsAtLimit),
            Damage::LengthCrossesLimit => Some(Ending::LengthCrossesLimit),
            Damage::CrossesLimit => Some(Ending::CrossesLimit),
            Damage::CutAtLimit => Some(Ending::CutAtLimit),
            Damage::GoesOn => Some(Ending::GoesOn),
            Damage::None
            | Damage::Empty
            | Damage::WrongVersion
            | Damage::FirstMissing
            | Damage::FirstLengthCut
            | Damage::FirstTooShort
            | Damage::FirstTooLong
            | Damage::FirstCut
            | Damage::BadTree
            | Damage::LengthCut
            | Damage::TooShort
            | Damage::TooLong
            | Damage::Cut => None,
        }
    }
}

/// A trail with this damage.
pub fn trail(random: &mut Random, damage: Damage) -> Vec<u8> {
    match damage.ending() {
        Some(ending) => long(random, ending),
        None => short(random, damage),
    }
}

fn short(random: &mut Random, damage: Damage) -> Vec<u8> {
    let tree = trees::good(random);
    let first_value = random.value();
    let most = random.pick(&[0, 1, 5, 40, 200]);
    let number = random.between(0, most);
    let events = events(random, tree, first_value, number);
    let mut bytes = Trail::to_bytes(&tree, first_value, &events);
    let first_end = Trail::size(&tree, 0);
    let tail = Trail::to_bytes(&tree, first_value, &events).split_off(first_end);
    let whole = bytes.len();
    match damage {
        Damage::None => {}
        Damage::Empty => bytes.clear(),
        Damage::WrongVersion => bytes[0] = random.pick(&[0, 2, 255]),
        Damage::FirstMissing => bytes.truncate(1),
        Damage::FirstLengthCut => bytes.truncate(2),
        Damage::FirstTooShort => {
            let length = near_or_far(random, 8, &[0, 1, 2, 7]);
            bytes = with_first(&vec![0; length], &tail);
        }
        Damage::FirstTooLong => {
            let length = near_or_far(random, 24, &[25, 32, 256 + 9, 256 + 23, 4000]);
            bytes = with_first(&vec![0; length], &tail);
        }
        Damage::FirstCut => bytes.truncate(random.between(3, first_end - 1)),
        Damage::BadTree => {
            let node = random.between(1, tree.count() - 1);
            bytes[1 + 2 + 8 + node - 1] = trees::bad_parent(random, node);
        }
        Damage::LengthCut => bytes.push(random.pick(&[0, 1, 11])),
        Damage::TooShort => {
            let length = near_or_far(random, 10, &[0, 1, 2, 9]);
            wrong_length(random, &mut bytes, &tail, length);
        }
        Damage::TooLong => {
            let length = near_or_far(random, 12, &[13, 23, 256, 256 + 11, 3000, 65_535]);
            wrong_length(random, &mut bytes, &tail, length);
        }
        Damage::Cut => {
            write_record(&mut bytes, &[0; 11]);
            bytes.truncate(random.between(whole + 2, whole + 12));
        }
        Damage::EndsAtLimit
        | Damage::BeginsAtLimit
        | Damage::LengthCrossesLimit
        | Damage::CrossesLimit
        | Damage::CutAtLimit
        | Damage::GoesOn => unreachable!("a long trail"),
    }
    bytes
}

/// Version, this first record, and what follows.
fn with_first(first: &[u8], tail: &[u8]) -> Vec<u8> {
    let mut bytes = vec![VERSION];
    write_record(&mut bytes, first);
    bytes.extend(tail);
    bytes
}

/// The length next to a right one, or one farther off.
fn near_or_far(random: &mut Random, near: usize, far: &[usize]) -> usize {
    match random.percent(50) {
        true => near,
        false => random.pick(far),
    }
}

/// A record with a wrong length, and good events after it.
fn wrong_length(random: &mut Random, bytes: &mut Vec<u8>, tail: &[u8], length: usize) {
    let body: Vec<u8> = (0..length).map(|_| random.byte()).collect();
    write_record(bytes, &body);
    bytes.extend(tail);
}

/// A trail that fills the first 65,536 bytes. The tree's size decides where the last record begins: with 6 nodes
/// one event ends exactly at the limit, with 5 nodes one begins a byte before it.
fn long(random: &mut Random, ending: Ending) -> Vec<u8> {
    let count = match ending {
        Ending::AtLimit | Ending::BeginsAtLimit => 6,
        Ending::LengthCrossesLimit => 5,
        Ending::CrossesLimit | Ending::CutAtLimit | Ending::GoesOn => {
            random.pick(&[2, 3, 4, 7, 8, 12, 15, 16])
        }
    };
    let tree = trees::with_count(random, count);
    let first_value = random.value();
    let events = events(random, tree, first_value, LIMIT / 13 + 2);
    let mut bytes = Trail::to_bytes(&tree, first_value, &events);
    match ending {
        Ending::AtLimit | Ending::CutAtLimit => bytes.truncate(LIMIT),
        Ending::BeginsAtLimit => bytes.truncate(LIMIT + random.pick(&[1, 2, 12, 13])),
        Ending::LengthCrossesLimit | Ending::CrossesLimit => {
            bytes.truncate(LIMIT + random.between(1, 13));
        }
        Ending::GoesOn => bytes.resize(random.between(100_000, 300_000), 0),
    }
    bytes
}

fn events(random: &mut Random, tree: Tree, first_value: u64, number: usize) -> Vec<Event> {
    let mut walk = Walk::new(random, tree, first_value);
    (0..number)
        .map(|_| {
            let event = walk.next_event(random);
            walk.take(&event);
            event
        })
        .collect()
}
