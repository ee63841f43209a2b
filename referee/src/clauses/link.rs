//! The clauses on a link: its slots, and the fields of their messages.

use super::list::{Breaches, Clause};
use crate::codes::{Acquire, Cap, Confirmation, DownCode, Rights, UpCode};
use crate::record::LinkRecord;

impl Breaches {
    pub fn link(&mut self, link: &LinkRecord) {
        let up = UpCode::from_code(link.c);
        let down = DownCode::from_code(link.d);
        for (code, known, clause) in [
            (
                link.a,
                Acquire::from_code(link.a).is_some(),
                Clause::CodeInA,
            ),
            (link.b, Cap::from_code(link.b).is_some(), Clause::CodeInB),
            (link.c, up.is_some(), Clause::CodeInC),
            (link.d, down.is_some(), Clause::CodeInD),
            (
                link.e,
                Confirmation::from_code(link.e).is_some(),
                Clause::CodeInE,
            ),
        ] {
            self.add(code != 0 && !known, clause);
        }

        let probe_ack = up.is_some_and(UpCode::is_probe_ack);
        let kept = Rights::from_code(link.kept);
        self.add(
            probe_ack && !kept.is_some_and(Rights::may_be_kept),
            Clause::CodeOfKept,
        );
        self.add(
            link.c != 0 && !probe_ack && link.kept != 0,
            Clause::KeptWithoutProbeAck,
        );
        self.add(
            up.is_some_and(|code| !code.carries_data()) && link.up != 0,
            Clause::ValueWithoutDataInC,
        );
        self.add(
            down.is_some_and(|code| !code.carries_data()) && link.down != 0,
            Clause::ValueWithoutDataInD,
        );
        self.add(
            link.c == 0 && (link.kept != 0 || link.up != 0),
            Clause::FieldInEmptyC,
        );
        self.add(link.d == 0 && link.down != 0, Clause::FieldInEmptyD);
    }
}
