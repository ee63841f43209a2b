//! Random configurations that no walk has to reach: each field at random, within the list of number 2.

use crate::random::Random;
use referee::clauses::breaches;
use referee::codes::{Acquire, Cap, Confirmation, DownCode, Entry, Phase, Purpose, Rights};
use referee::configuration::Configuration;
use referee::link::{Down, Link, Up};
use referee::node::{Node, Set};
use referee::record::Record;
use referee::tree::{Tree, NODES};

pub fn configuration(random: &mut Random, tree: Tree) -> Configuration {
    let mut configuration = Configuration::reset(tree, 0);
    let quiet = random.pick(&[20, 50, 80]);
    for at in tree.nodes() {
        configuration.nodes[at] = node(random, &tree, at, quiet);
        if at != 0 {
            configuration.links[at] = link(random, quiet);
        }
    }
    configuration
}

/// A node; `quiet` is the chance in a hundred that a transaction is idle or a set empty.
fn node(random: &mut Random, tree: &Tree, at: usize, quiet: usize) -> Node {
    let children: Vec<usize> = tree.children(at).collect();
    let leaf = children.is_empty();
    let rights = random.pick(Rights::ALL);
    let mut entries = [Entry::None; NODES];
    for &child in &children {
        entries[child] = match rights {
            Rights::N => Entry::None,
            Rights::B => random.pick(&[Entry::None, Entry::Branch]),
            Rights::Tip => random.pick(Entry::ALL),
        };
    }
    let (phase, purpose) = main_transaction(random, leaf, quiet);
    let (dirty, value) = match rights {
        Rights::N => (false, 0),
        Rights::B => (false, random.value()),
        Rights::Tip => (random.percent(50), random.value()),
    };
    let asked = !leaf && purpose.is_some_and(Purpose::has_requester);
    Node {
        rights,
        dirty,
        value,
        entries,
        phase,
        purpose,
        requester: asked.then(|| random.pick(&children)),
        probe: (!random.percent(quiet)).then(|| random.pick(Cap::ALL)),
        release: (!leaf && !random.percent(quiet)).then(|| random.pick(&children)),
        to_probe: set(random, &children, quiet),
        pending: set(random, &children, quiet),
    }
}

fn main_transaction(random: &mut Random, leaf: bool, quiet: usize) -> (Phase, Option<Purpose>) {
    let phase = if random.percent(quiet / 2) {
        Phase::Idle
    } else {
        random.pick(Phase::ALL)
    };
    let purpose = random.pick(Purpose::ALL);
    match phase {
        Phase::Idle => (phase, None),
        Phase::Clear => (phase, Some(purpose)),
        Phase::LetGo | Phase::Leaving => (phase, Some(Purpose::Evict)),
        Phase::Give | Phase::Await if leaf => (Phase::Wait, Some(Purpose::Load)),
        Phase::Ask | Phase::Wait | Phase::Confirm | Phase::Give | Phase::Await => match purpose {
            Purpose::Load | Purpose::Store => (phase, Some(purpose)),
            Purpose::Evict => (phase, Some(Purpose::Store)),
        },
    }
}

fn set(random: &mut Random, children: &[usize], quiet: usize) -> Set {
    let mut set = [false; NODES];
    if !random.percent(quiet) {
        for &child in children {
            set[child] = random.percent(50);
        }
    }
    set
}

fn link(random: &mut Random, quiet: usize) -> Link {
    let mut full = || !random.percent(quiet);
    let (a, b, c, d, e) = (full(), full(), full(), full(), full());
    Link {
        a: a.then(|| random.pick(Acquire::ALL)),
        b: b.then(|| random.pick(Cap::ALL)),
        c: c.then(|| up(random)),
        d: d.then(|| down(random)),
        e: e.then_some(Confirmation::GrantAck),
    }
}

fn up(random: &mut Random) -> Up {
    let data = random.percent(50).then(|| random.value());
    if random.percent(50) {
        Up::Release { data }
    } else {
        let kept = random.pick_where(Rights::ALL, Rights::may_be_kept);
        Up::ProbeAck { kept, data }
    }
}

fn down(random: &mut Random) -> Down {
    let code = random.pick(DownCode::ALL);
    let value = if code.carries_data() {
        random.value()
    } else {
        0
    };
    Down::of(code, value)
}

/// A configuration that differs from this one in a few fields.
pub fn altered(random: &mut Random, configuration: &Configuration) -> Configuration {
    let tree = configuration.tree;
    let mut record = configuration.to_record();
    for _ in 0..random.between(1, 4) {
        let mut next = record.clone();
        alter_field(random, &tree, &mut next);
        if breaches(&tree, &next).is_empty() {
            record = next;
        }
    }
    Configuration::from_record(tree, &record).expect("breaks no clause")
}

/// Sets one field of a record to any code: a small one mostly.
pub fn alter_field(random: &mut Random, tree: &Tree, record: &mut Record) {
    let nodes = if random.percent(95) {
        tree.count()
    } else {
        NODES
    };
    let at = random.below(nodes);
    let cell = random.below(nodes);
    let flag = random.percent(50);
    let value = random.value();
    let code = match random.below(10) {
        0 => random.byte(),
        1 => random.below(NODES) as u8,
        _ => random.below(5) as u8,
    };
    let node = &mut record.nodes[at];
    let link = &mut record.links[at];
    match random.below(22) {
        0 => record.rights[at] = code,
        1..3 => record.entries[at][cell] = code,
        3 => record.to_probe[at][cell] = flag,
        4 => record.pending[at][cell] = flag,
        5 => node.dirty = flag,
        6 => node.value = value,
        7..9 => node.phase = random.below(10) as u8,
        9 => node.purpose = code,
        10 => node.requester = cell as u8,
        11 => (node.probe, node.cap) = (flag, u8::from(flag) * code),
        12 => node.cap = code,
        13 => node.release = random.pick(&[0, cell as u8, code]),
        14 => link.a = code,
        15 => link.b = code,
        16 => link.c = code,
        17 => link.kept = code,
        18 => link.up = value,
        19 => link.d = code,
        20 => link.down = value,
        _ => link.e = code,
    }
}
