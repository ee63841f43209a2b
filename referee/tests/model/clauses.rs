//! Number 2, clause by clause: a configuration with one field changed breaks exactly the clause named.

use crate::common::{after, NODE_2_ASKS_WHILE_NODE_1_IS_DIRTY};
use referee::clauses::{breaches, Clause};
use referee::configuration::Configuration;
use referee::judge::configuration_of;
use referee::record::Record;

/// Tree 0 0 0: the root is T and in Clear for node 2's load with a probe to node 1 out, node 1 is TT and dirty with
/// 9, node 2 is N and in Wait, node 3 is N and quiet.
fn record() -> Record {
    let trail = NODE_2_ASKS_WHILE_NODE_1_IS_DIRTY.replace("tree 0 0", "tree 0 0 0");
    after(&format!("{trail}\nsend-probe 0 to 1\n")).to_record()
}

fn broken(change: impl FnOnce(&mut Record)) -> Vec<Clause> {
    let mut record = record();
    change(&mut record);
    breaches(&record.tree().expect("the tree is good"), &record)
}

#[test]
fn a_configuration_breaks_none_and_comes_back() {
    let record = record();
    let configuration = configuration_of(&record).expect("a configuration");
    assert_eq!(configuration.to_record(), record);
    assert_eq!(
        Configuration::from_record(configuration.tree, &record),
        Ok(configuration)
    );
}

#[test]
fn codes() {
    assert_eq!(broken(|r| r.rights[1] = 3), [Clause::CodeOfRights]);
    assert_eq!(broken(|r| r.entries[0][1] = 3), [Clause::CodeOfEntry]);
    assert_eq!(broken(|r| r.nodes[2].phase = 9), [Clause::CodeOfPhase]);
    assert_eq!(broken(|r| r.nodes[2].purpose = 4), [Clause::CodeOfPurpose]);
    assert_eq!(broken(|r| r.nodes[1].probe = true), [Clause::CodeOfCap]);
    assert_eq!(
        broken(|r| (r.nodes[1].probe, r.nodes[1].cap) = (true, 3)),
        [Clause::CodeOfCap]
    );
    assert_eq!(broken(|r| r.links[3].a = 4), [Clause::CodeInA]);
    assert_eq!(broken(|r| r.links[3].b = 3), [Clause::CodeInB]);
    assert_eq!(broken(|r| r.links[3].c = 5), [Clause::CodeInC]);
    assert_eq!(broken(|r| r.links[3].d = 5), [Clause::CodeInD]);
    assert_eq!(broken(|r| r.links[3].e = 2), [Clause::CodeInE]);
    let kept = |code| move |r: &mut Record| (r.links[3].c, r.links[3].kept) = (1, code);
    assert_eq!(broken(kept(0)), []);
    assert_eq!(broken(kept(1)), []);
    assert_eq!(broken(kept(2)), [Clause::CodeOfKept]);
}

#[test]
fn children() {
    for stranger in [0, 2, 4, 15] {
        assert_eq!(
            broken(|r| r.entries[1][stranger] = 1),
            [Clause::EntryNotAChild]
        );
        assert_eq!(
            broken(|r| r.to_probe[1][stranger] = true),
            [Clause::ToProbeNotAChild]
        );
        assert_eq!(
            broken(|r| r.pending[2][stranger] = true),
            [Clause::PendingNotAChild]
        );
    }
    for stranger in [4, 15, 16, 255] {
        assert_eq!(
            broken(|r| r.nodes[0].requester = stranger),
            [Clause::RequesterNotAChild]
        );
        assert_eq!(
            broken(|r| r.nodes[0].release = stranger),
            [Clause::ReleaseNotAChild]
        );
    }
    assert_eq!(broken(|r| r.nodes[0].release = 3), []);
    assert_eq!(
        broken(|r| r.entries[0][0] = 1),
        [Clause::EntryNotAChild],
        "the root is not its own child"
    );
}

#[test]
fn root_and_beyond() {
    assert_eq!(broken(|r| r.links[0].a = 1), [Clause::FullSlotAtRoot]);
    assert_eq!(broken(|r| r.links[0].e = 1), [Clause::FullSlotAtRoot]);
    assert_eq!(broken(|r| r.links[4].b = 1), [Clause::FullSlotBeyond]);
    assert_eq!(broken(|r| r.links[15].d = 4), [Clause::FullSlotBeyond]);
    assert_eq!(broken(|r| r.parents[0] = 1), [Clause::ParentAtRoot]);
    assert_eq!(broken(|r| r.parents[4] = 1), [Clause::FieldBeyond]);
    assert_eq!(broken(|r| r.rights[15] = 1), [Clause::FieldBeyond]);
    assert_eq!(broken(|r| r.entries[4][0] = 1), [Clause::FieldBeyond]);
    assert_eq!(broken(|r| r.pending[4][15] = true), [Clause::FieldBeyond]);
    assert_eq!(broken(|r| r.nodes[4].value = 1), [Clause::FieldBeyond]);
    assert_eq!(broken(|r| r.nodes[15].release = 1), [Clause::FieldBeyond]);
    assert_eq!(broken(|r| r.links[4].kept = 1), [Clause::FieldBeyond]);
    assert_eq!(broken(|r| r.links[15].down = 1), [Clause::FieldBeyond]);
}

#[test]
fn messages() {
    for (code, clause) in [(1, Some(Clause::ValueWithoutDataInC)), (2, None)] {
        let found = broken(|r| (r.links[3].c, r.links[3].up) = (code, 5));
        assert_eq!(found, Vec::from_iter(clause));
    }
    for (code, clause) in [(3, Some(Clause::ValueWithoutDataInC)), (4, None)] {
        let found = broken(|r| (r.links[3].c, r.links[3].up) = (code, 5));
        assert_eq!(found, Vec::from_iter(clause));
    }
    for code in [1, 4] {
        let found = broken(|r| (r.links[3].d, r.links[3].down) = (code, 5));
        assert_eq!(found, [Clause::ValueWithoutDataInD]);
    }
    for code in [3, 4] {
        let found = broken(|r| (r.links[3].c, r.links[3].kept) = (code, 1));
        assert_eq!(found, [Clause::KeptWithoutProbeAck]);
    }
    assert_eq!(broken(|r| r.links[3].kept = 1), [Clause::FieldInEmptyC]);
    assert_eq!(broken(|r| r.links[0].up = 1), [Clause::FieldInEmptyC]);
    assert_eq!(broken(|r| r.links[3].down = 1), [Clause::FieldInEmptyD]);
    assert_eq!(broken(|r| r.nodes[3].cap = 1), [Clause::CapOnClosedProbe]);
}

#[test]
fn rights() {
    let low = |rights| {
        move |r: &mut Record| {
            r.rights[0] = rights;
            r.entries[0][1] = 0;
            r.nodes[0].value = 0;
        }
    };
    assert_eq!(broken(low(0)), []);
    let with = |rights, change: fn(&mut Record)| {
        broken(|r| {
            low(rights)(r);
            change(r);
        })
    };
    assert_eq!(with(0, |r| r.entries[0][1] = 1), [Clause::EntryAtN]);
    assert_eq!(with(1, |r| r.entries[0][1] = 1), []);
    assert_eq!(with(1, |r| r.entries[0][1] = 2), [Clause::TrunkBelowTip]);
    assert_eq!(with(2, |r| r.entries[0][1] = 2), []);
    assert_eq!(with(0, |r| r.nodes[0].dirty = true), [Clause::DirtyAtN]);
    assert_eq!(with(0, |r| r.nodes[0].value = 1), [Clause::ValueAtN]);
    assert_eq!(with(1, |r| r.nodes[0].dirty = true), [Clause::DirtyAtB]);
    assert_eq!(with(1, |r| r.nodes[0].value = 1), []);
    assert_eq!(with(2, |r| r.nodes[0].dirty = true), []);
}

#[test]
fn phases_and_purposes() {
    // Node 3 is a leaf, node 0 is not.
    let leaf =
        |phase, purpose| broken(|r| (r.nodes[3].phase, r.nodes[3].purpose) = (phase, purpose));
    assert_eq!(leaf(0, 1), [Clause::IdleWithPurpose]);
    for phase in 1..=8 {
        let mut found = leaf(phase, 0);
        found.retain(|&clause| clause != Clause::GiveAtLeaf);
        assert_eq!(found, [Clause::BusyWithoutPurpose]);
    }
    for phase in [1, 7, 8] {
        assert_eq!(leaf(phase, 3), []);
    }
    for phase in [2, 3, 4] {
        assert_eq!(leaf(phase, 3), [Clause::EvictOutside]);
    }
    for (phase, purpose) in [(7, 1), (8, 1), (7, 2), (8, 2)] {
        assert_eq!(leaf(phase, purpose), [Clause::LoadStoreInside]);
    }
    for (phase, purpose) in [(5, 1), (6, 1), (5, 2), (6, 2)] {
        assert_eq!(leaf(phase, purpose), [Clause::GiveAtLeaf]);
    }
    let inner = |phase, purpose, requester| {
        broken(|r| {
            let node = &mut r.nodes[0];
            (node.phase, node.purpose, node.requester) = (phase, purpose, requester);
        })
    };
    for phase in 1..=6 {
        assert_eq!(inner(phase, 1, 2), []);
        assert_eq!(inner(phase, 2, 0), [Clause::RequesterMissing]);
    }
    assert_eq!(inner(0, 0, 2), [Clause::RequesterElsewhere]);
    assert_eq!(inner(7, 3, 2), [Clause::RequesterElsewhere]);
}
