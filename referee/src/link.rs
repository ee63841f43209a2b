//! A link between a node and its parent: five slots of one message each.

use crate::codes::{Acquire, Cap, Confirmation, DownCode, Rights, UpCode};

#[derive(Clone, Copy, Debug, Default, PartialEq, Eq)]
pub struct Link {
    pub a: Option<Acquire>,
    pub b: Option<Cap>,
    pub c: Option<Up>,
    pub d: Option<Down>,
    pub e: Option<Confirmation>,
}

/// The message in slot C.
#[derive(Clone, Copy, Debug, PartialEq, Eq)]
pub enum Up {
    /// `kept` is N or B.
    ProbeAck {
        kept: Rights,
        data: Option<u64>,
    },
    Release {
        data: Option<u64>,
    },
}

/// The message in slot D.
#[derive(Clone, Copy, Debug, PartialEq, Eq)]
pub enum Down {
    GrantT,
    GrantDataT(u64),
    GrantDataB(u64),
    ReleaseAck,
}

impl Up {
    /// The message with this code; `kept` and `value` as far as it has them.
    pub fn of(code: UpCode, kept: Rights, value: u64) -> Up {
        let data = code.carries_data().then_some(value);
        match code {
            UpCode::ProbeAck | UpCode::ProbeAckData => Up::ProbeAck { kept, data },
            UpCode::Release | UpCode::ReleaseData => Up::Release { data },
        }
    }

    pub fn code(self) -> UpCode {
        match self {
            Up::ProbeAck { data: None, .. } => UpCode::ProbeAck,
            Up::ProbeAck { data: Some(_), .. } => UpCode::ProbeAckData,
            Up::Release { data: None } => UpCode::Release,
            Up::Release { data: Some(_) } => UpCode::ReleaseData,
        }
    }

    pub fn data(self) -> Option<u64> {
        match self {
            Up::ProbeAck { data, .. } | Up::Release { data } => data,
        }
    }

    pub fn kept(self) -> Option<Rights> {
        match self {
            Up::ProbeAck { kept, .. } => Some(kept),
            Up::Release { .. } => None,
        }
    }
}

impl Down {
    /// The message with this code; `value` as far as it has one.
    pub fn of(code: DownCode, value: u64) -> Down {
        match code {
            DownCode::GrantT => Down::GrantT,
            DownCode::GrantDataT => Down::GrantDataT(value),
            DownCode::GrantDataB => Down::GrantDataB(value),
            DownCode::ReleaseAck => Down::ReleaseAck,
        }
    }

    pub fn code(self) -> DownCode {
        match self {
            Down::GrantT => DownCode::GrantT,
            Down::GrantDataT(_) => DownCode::GrantDataT,
            Down::GrantDataB(_) => DownCode::GrantDataB,
            Down::ReleaseAck => DownCode::ReleaseAck,
        }
    }

    pub fn data(self) -> Option<u64> {
        match self {
            Down::GrantDataT(value) | Down::GrantDataB(value) => Some(value),
            Down::GrantT | Down::ReleaseAck => None,
        }
    }
}
