//! The lists of document 01 with their codes, as docs/FORMAT.md sets them out. What a code means for a rule is a
//! match on every case, so that a new case is missed nowhere.

use crate::lists::coded;

coded! {
    /// The rights of a node, the lowest first.
    Rights { N = 0, B = 1, Tip = 2 }
}

coded! {
    /// What a node knows of a child, the lowest first.
    Entry { None = 0, Branch = 1, Trunk = 2 }
}

coded! {
    /// The phase of the main transaction.
    Phase {
        Idle = 0, Clear = 1, Ask = 2, Wait = 3, Confirm = 4, Give = 5, Await = 6, LetGo = 7, Leaving = 8,
    }
}

coded! {
    /// The purpose of the main transaction, where it has one.
    Purpose { Load = 1, Store = 2, Evict = 3 }
}

coded! {
    /// The cap of an open probe; also the message in slot B, ProbeB or ProbeN.
    Cap { B = 1, N = 2 }
}

coded! {
    /// The message in slot A.
    Acquire { AcquireB = 1, AcquireT = 2, AcquireU = 3 }
}

coded! {
    /// The code of the message in slot C.
    UpCode { ProbeAck = 1, ProbeAckData = 2, Release = 3, ReleaseData = 4 }
}

coded! {
    /// The code of the message in slot D.
    DownCode { GrantT = 1, GrantDataT = 2, GrantDataB = 3, ReleaseAck = 4 }
}

coded! {
    /// The message in slot E.
    Confirmation { GrantAck = 1 }
}

coded! {
    /// The "other" of kind 14.
    Choice { Shared = 0, Sole = 1 }
}

impl Rights {
    /// The entry that a parent holds for a child with these rights.
    pub fn entry(self) -> Entry {
        match self {
            Rights::N => Entry::None,
            Rights::B => Entry::Branch,
            Rights::Tip => Entry::Trunk,
        }
    }

    /// A ProbeAck has kept rights N or B.
    pub fn may_be_kept(self) -> bool {
        match self {
            Rights::N | Rights::B => true,
            Rights::Tip => false,
        }
    }
}

impl Phase {
    /// The phases of an eviction.
    pub fn may_evict(self) -> bool {
        match self {
            Phase::Clear | Phase::LetGo | Phase::Leaving => true,
            Phase::Idle
            | Phase::Ask
            | Phase::Wait
            | Phase::Confirm
            | Phase::Give
            | Phase::Await => false,
        }
    }

    /// The phases of an eviction alone.
    pub fn must_evict(self) -> bool {
        match self {
            Phase::LetGo | Phase::Leaving => true,
            Phase::Idle
            | Phase::Clear
            | Phase::Ask
            | Phase::Wait
            | Phase::Confirm
            | Phase::Give
            | Phase::Await => false,
        }
    }

    /// The phases in which a node serves a child, so that a leaf has none of them.
    pub fn serves_child(self) -> bool {
        match self {
            Phase::Give | Phase::Await => true,
            Phase::Idle
            | Phase::Clear
            | Phase::Ask
            | Phase::Wait
            | Phase::Confirm
            | Phase::LetGo
            | Phase::Leaving => false,
        }
    }
}

impl Purpose {
    /// The purposes for which a non-leaf has a requester.
    pub fn has_requester(self) -> bool {
        match self {
            Purpose::Load | Purpose::Store => true,
            Purpose::Evict => false,
        }
    }

    /// None, and every purpose.
    pub fn or_none() -> impl Iterator<Item = Option<Purpose>> {
        std::iter::once(None).chain(Purpose::ALL.iter().copied().map(Some))
    }
}

impl Cap {
    pub fn rights(self) -> Rights {
        match self {
            Cap::B => Rights::B,
            Cap::N => Rights::N,
        }
    }

    /// The message in slot B with this cap.
    pub fn message(self) -> &'static str {
        match self {
            Cap::B => "ProbeB",
            Cap::N => "ProbeN",
        }
    }
}

impl UpCode {
    pub fn carries_data(self) -> bool {
        match self {
            UpCode::ProbeAckData | UpCode::ReleaseData => true,
            UpCode::ProbeAck | UpCode::Release => false,
        }
    }

    pub fn is_probe_ack(self) -> bool {
        match self {
            UpCode::ProbeAck | UpCode::ProbeAckData => true,
            UpCode::Release | UpCode::ReleaseData => false,
        }
    }
}

impl DownCode {
    pub fn carries_data(self) -> bool {
        match self {
            DownCode::GrantDataT | DownCode::GrantDataB => true,
            DownCode::GrantT | DownCode::ReleaseAck => false,
        }
    }
}
