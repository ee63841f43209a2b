//! Records that break exactly one clause of number 2.

use crate::random::Random;
use crate::{scattered, trees};
use referee::clauses::{breaches, Clause};
use referee::codes::{Acquire, Cap, Confirmation, DownCode, Entry, Phase, Purpose, Rights, UpCode};
use referee::configuration::Configuration;
use referee::record::{LinkRecord, Record};
use referee::tree::{Tree, NODES};

/// A configuration, and the record made from it that breaks this clause and no other.
pub fn alone(random: &mut Random, clause: Clause) -> (Configuration, Record) {
    loop {
        let tree = trees::good(random);
        let configuration = scattered::configuration(random, tree);
        let mut record = configuration.to_record();
        let at = random.below(tree.count());
        breaks(random, clause, &tree, &mut record, at);
        let broken = breaches(&tree, &record);
        if !broken.is_empty() && broken.iter().all(|&other| other == clause) {
            return (configuration, record);
        }
    }
}

/// Tries to break a clause at a node. It may fail, or break others as well.
fn breaks(random: &mut Random, clause: Clause, tree: &Tree, record: &mut Record, at: usize) {
    let any_node = random.below(NODES);
    let stranger = stranger(random, tree, at);
    let child = tree.children(at).next();
    let node = &mut record.nodes[at];
    let link = &mut record.links[at];
    match clause {
        Clause::CodeOfRights => record.rights[at] = above(random, Rights::LAST),
        Clause::CodeOfEntry => {
            if let Some(child) = child {
                record.entries[at][child] = above(random, Entry::LAST);
            }
        }
        Clause::CodeOfPhase => node.phase = above(random, Phase::LAST),
        Clause::CodeOfPurpose => {
            (node.purpose, node.requester) = (above(random, Purpose::LAST), 0);
        }
        Clause::CodeOfCap => {
            let outside = above(random, Cap::LAST);
            (node.probe, node.cap) = (true, random.pick(&[0, outside]));
        }
        Clause::CodeInA => link.a = above(random, Acquire::LAST),
        Clause::CodeInB => link.b = above(random, Cap::LAST),
        Clause::CodeInC => (link.c, link.kept) = (above(random, UpCode::LAST), 0),
        Clause::CodeOfKept => link.kept = above(random, Rights::B.code()),
        Clause::CodeInD => link.d = above(random, DownCode::LAST),
        Clause::CodeInE => link.e = above(random, Confirmation::LAST),
        Clause::EntryNotAChild => record.entries[at][stranger] = a_code(random, Entry::LAST),
        Clause::ToProbeNotAChild => record.to_probe[at][stranger] = true,
        Clause::PendingNotAChild => record.pending[at][stranger] = true,
        Clause::RequesterNotAChild => node.requester = outsider(random, stranger),
        Clause::ReleaseNotAChild => node.release = outsider(random, stranger),
        Clause::FullSlotAtRoot => fill_slot(random, &mut record.links[0]),
        Clause::FullSlotBeyond => fill_slot(random, &mut record.links[any_node]),
        Clause::ParentAtRoot => record.parents[0] = above(random, 0),
        Clause::FieldBeyond => field_beyond(random, record, any_node),
        Clause::ValueWithoutDataInC => link.up = random.nonzero(),
        Clause::ValueWithoutDataInD => link.down = random.nonzero(),
        Clause::KeptWithoutProbeAck => link.kept = above(random, 0),
        Clause::FieldInEmptyC => match random.below(2) {
            0 => link.kept = above(random, 0),
            _ => link.up = random.nonzero(),
        },
        Clause::FieldInEmptyD => link.down = random.nonzero(),
        Clause::CapOnClosedProbe => (node.probe, node.cap) = (false, above(random, 0)),
        Clause::EntryAtN => {
            if let Some(child) = child {
                record.entries[at][child] = Entry::Branch.code();
            }
        }
        Clause::TrunkBelowTip => {
            if let Some(child) = child {
                record.entries[at][child] = Entry::Trunk.code();
            }
        }
        Clause::DirtyAtN | Clause::DirtyAtB => node.dirty = true,
        Clause::ValueAtN => node.value = random.nonzero(),
        Clause::IdleWithPurpose => {
            node.phase = Phase::Idle.code();
            node.purpose = purpose_with_requester(random).code();
            node.requester = child.map_or(0, |child| child as u8);
        }
        Clause::BusyWithoutPurpose => (node.purpose, node.requester) = (0, 0),
        Clause::EvictOutside => (node.purpose, node.requester) = (Purpose::Evict.code(), 0),
        Clause::LoadStoreInside => {
            node.purpose = purpose_with_requester(random).code();
            node.requester = child.map_or(0, |child| child as u8);
        }
        Clause::GiveAtLeaf => {
            let phase = random.pick_where(Phase::ALL, Phase::serves_child);
            node.phase = phase.code();
        }
        Clause::RequesterMissing => node.requester = 0,
        Clause::RequesterElsewhere => node.requester = child.map_or(0, |child| child as u8),
    }
}

/// A code of a list that ends with this one, and 0 of which is empty.
fn a_code(random: &mut Random, last: u8) -> u8 {
    random.between(1, usize::from(last)) as u8
}

fn purpose_with_requester(random: &mut Random) -> Purpose {
    random.pick_where(Purpose::ALL, Purpose::has_requester)
}

/// A code above a limit: the next one often.
fn above(random: &mut Random, limit: u8) -> u8 {
    match random.below(3) {
        0 => limit + 1,
        1 => 255,
        _ => random.between(usize::from(limit) + 1, 255) as u8,
    }
}

/// A cell that is not for a child of the node: itself, its parent, another node or one beyond the last.
fn stranger(random: &mut Random, tree: &Tree, at: usize) -> usize {
    let others: Vec<usize> = (0..NODES)
        .filter(|&other| !tree.is_child(other, at))
        .collect();
    let near = [at, tree.parent(at), tree.count().min(NODES - 1)];
    match random.below(2) {
        0 => random.pick(&others),
        _ => random.pick(&near),
    }
}

/// A node number that is not a child: a stranger, or beyond the limit.
fn outsider(random: &mut Random, stranger: usize) -> u8 {
    random.pick(&[stranger as u8, stranger as u8, NODES as u8, 255])
}

fn fill_slot(random: &mut Random, link: &mut LinkRecord) {
    match random.below(5) {
        0 => link.a = a_code(random, Acquire::LAST),
        1 => link.b = a_code(random, Cap::LAST),
        2 => link.c = a_code(random, UpCode::LAST),
        3 => link.d = a_code(random, DownCode::LAST),
        _ => link.e = Confirmation::GrantAck.code(),
    }
}

fn field_beyond(random: &mut Random, record: &mut Record, at: usize) {
    let code = above(random, 0);
    let cell = random.below(NODES);
    let node = &mut record.nodes[at];
    let link = &mut record.links[at];
    match random.below(16) {
        0 => record.parents[at] = code,
        1 => record.rights[at] = code,
        2 => record.entries[at][cell] = code,
        3 => record.to_probe[at][cell] = true,
        4 => record.pending[at][cell] = true,
        5 => node.dirty = true,
        6 => node.value = random.nonzero(),
        7 => node.phase = code,
        8 => node.purpose = code,
        9 => node.requester = code,
        10 => node.probe = true,
        11 => node.cap = code,
        12 => node.release = code,
        13 => link.kept = code,
        14 => link.up = random.nonzero(),
        _ => link.down = random.nonzero(),
    }
}
