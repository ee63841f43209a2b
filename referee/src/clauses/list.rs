//! The clauses of number 2, and the list of those that are broken.

use crate::worded;

worded! {
    /// The clauses of the list, in its order.
    Clause {
        CodeOfRights: "a code outside its list: rights",
        CodeOfEntry: "a code outside its list: entry",
        CodeOfPhase: "a code outside its list: phase",
        CodeOfPurpose: "a code outside its list: purpose",
        CodeOfCap: "a code outside its list: cap of an open probe",
        CodeInA: "a code outside its list: slot A",
        CodeInB: "a code outside its list: slot B",
        CodeInC: "a code outside its list: slot C",
        CodeOfKept: "a code outside its list: kept rights",
        CodeInD: "a code outside its list: slot D",
        CodeInE: "a code outside its list: slot E",
        EntryNotAChild: "an entry that isn't a child",
        ToProbeNotAChild: "a member of to-probe that isn't a child",
        PendingNotAChild: "a member of pending that isn't a child",
        RequesterNotAChild: "a requester that isn't a child",
        ReleaseNotAChild: "a release child that isn't a child",
        FullSlotAtRoot: "a full slot on the root",
        FullSlotBeyond: "a full slot beyond the last node",
        ParentAtRoot: "a nonzero parent at the root",
        FieldBeyond: "a nonzero field beyond the last node",
        ValueWithoutDataInC: "a value in a message without data: slot C",
        ValueWithoutDataInD: "a value in a message without data: slot D",
        KeptWithoutProbeAck: "kept rights on a message other than ProbeAck",
        FieldInEmptyC: "a nonzero field in an empty slot: slot C",
        FieldInEmptyD: "a nonzero field in an empty slot: slot D",
        CapOnClosedProbe: "a cap on a closed probe",
        EntryAtN: "an entry not None at rights N",
        TrunkBelowTip: "a Trunk entry at rights other than Tip",
        DirtyAtN: "rights N with dirty set",
        ValueAtN: "rights N with value not 0",
        DirtyAtB: "rights B with dirty set",
        IdleWithPurpose: "Idle with a purpose",
        BusyWithoutPurpose: "another phase without a purpose",
        EvictOutside: "evict outside Clear, LetGo, Leaving",
        LoadStoreInside: "load or store inside LetGo or Leaving",
        GiveAtLeaf: "Give or Await at a leaf",
        RequesterMissing: "a requester missing for load or store at a non-leaf",
        RequesterElsewhere: "a requester present elsewhere",
    }
}

/// The clauses that are broken, each as often as it is broken.
#[derive(Default)]
pub struct Breaches(pub Vec<Clause>);

impl Breaches {
    pub fn add(&mut self, broken: bool, clause: Clause) {
        if broken {
            self.0.push(clause);
        }
    }
}
