//! The clauses on a node: its rights and entries, its transactions, its sets.

use super::list::{Breaches, Clause};
use crate::codes::{Cap, Entry, Phase, Purpose, Rights};
use crate::record::{NodeRecord, Record};
use crate::tree::{Tree, NODES};

impl Breaches {
    pub fn node(&mut self, tree: &Tree, record: &Record, node: usize) {
        self.rights_and_entries(tree, record, node);
        self.main_transaction(tree, &record.nodes[node], node);
        self.other_transactions(tree, &record.nodes[node], node);
        self.sets(tree, record, node);
    }

    fn rights_and_entries(&mut self, tree: &Tree, record: &Record, node: usize) {
        let rights = Rights::from_code(record.rights[node]);
        self.add(rights.is_none(), Clause::CodeOfRights);
        for (child, &code) in record.entries[node].iter().enumerate() {
            match Entry::from_code(code) {
                Some(Entry::None) => continue,
                Some(Entry::Branch) => {}
                Some(Entry::Trunk) => {
                    self.add(rights != Some(Rights::Tip), Clause::TrunkBelowTip);
                }
                None => self.add(true, Clause::CodeOfEntry),
            }
            self.add(!tree.is_child(child, node), Clause::EntryNotAChild);
            self.add(rights == Some(Rights::N), Clause::EntryAtN);
        }
        let NodeRecord { dirty, value, .. } = record.nodes[node];
        match rights {
            Some(Rights::N) => {
                self.add(dirty, Clause::DirtyAtN);
                self.add(value != 0, Clause::ValueAtN);
            }
            Some(Rights::B) => self.add(dirty, Clause::DirtyAtB),
            Some(Rights::Tip) | None => {}
        }
    }

    fn main_transaction(&mut self, tree: &Tree, main: &NodeRecord, node: usize) {
        let leaf = tree.is_leaf(node);
        let phase = Phase::from_code(main.phase);
        let purpose = Purpose::from_code(main.purpose);
        let has_purpose = main.purpose != 0;
        self.add(phase.is_none(), Clause::CodeOfPhase);
        self.add(has_purpose && purpose.is_none(), Clause::CodeOfPurpose);

        let idle = phase == Some(Phase::Idle);
        self.add(idle && has_purpose, Clause::IdleWithPurpose);
        self.add(!idle && !has_purpose, Clause::BusyWithoutPurpose);
        match purpose {
            Some(Purpose::Load | Purpose::Store) => self.add(
                phase.is_some_and(Phase::must_evict),
                Clause::LoadStoreInside,
            ),
            Some(Purpose::Evict) => self.add(
                phase.is_some_and(|phase| !phase.may_evict()),
                Clause::EvictOutside,
            ),
            None => {}
        }
        self.add(
            leaf && phase.is_some_and(Phase::serves_child),
            Clause::GiveAtLeaf,
        );

        let wanted = !leaf && purpose.is_some_and(Purpose::has_requester);
        let present = main.requester != 0;
        self.add(wanted && !present, Clause::RequesterMissing);
        self.add(!wanted && present, Clause::RequesterElsewhere);
        self.add(
            present && !tree.is_child(usize::from(main.requester), node),
            Clause::RequesterNotAChild,
        );
    }

    fn other_transactions(&mut self, tree: &Tree, at: &NodeRecord, node: usize) {
        self.add(
            at.probe && Cap::from_code(at.cap).is_none(),
            Clause::CodeOfCap,
        );
        self.add(!at.probe && at.cap != 0, Clause::CapOnClosedProbe);
        self.add(
            at.release != 0 && !tree.is_child(usize::from(at.release), node),
            Clause::ReleaseNotAChild,
        );
    }

    fn sets(&mut self, tree: &Tree, record: &Record, node: usize) {
        for child in (0..NODES).filter(|&child| !tree.is_child(child, node)) {
            self.add(record.to_probe[node][child], Clause::ToProbeNotAChild);
            self.add(record.pending[node][child], Clause::PendingNotAChild);
        }
    }
}
