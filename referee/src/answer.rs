//! The row of requests that the program `answer` reads, and the row of answers (docs/FORMAT.md).

use crate::event::{Event, EVENT_BYTES};
use crate::lists::coded;
use crate::record::{Record, RECORD_BYTES};
use crate::step::{reset, step, step_without_number_2, Answer};
use crate::tree::NODES;

coded! {
    /// What the first byte of a request asks for.
    Asks { Reset = 1, Step = 2, StepWithoutNumber2 = 3 }
}

const RESET_BYTES: usize = 1 + NODES + 8;
const STEP_BYTES: usize = RECORD_BYTES + EVENT_BYTES;

/// The bytes of an answer.
pub const ANSWER_BYTES: usize = 1 + 8 + RECORD_BYTES;

#[derive(Clone, Debug, PartialEq, Eq)]
pub enum Request {
    Reset {
        count: u8,
        parents: [u8; NODES],
        first_value: u64,
    },
    Step {
        record: Box<Record>,
        event: Event,
        tests_number_2: bool,
    },
}

impl Request {
    pub fn to_bytes(&self) -> Vec<u8> {
        let mut bytes = Vec::with_capacity(1 + STEP_BYTES);
        match self {
            Request::Reset {
                count,
                parents,
                first_value,
            } => {
                bytes.extend([Asks::Reset.code(), *count]);
                bytes.extend(parents);
                bytes.extend(first_value.to_be_bytes());
            }
            Request::Step {
                record,
                event,
                tests_number_2,
            } => {
                let asks = if *tests_number_2 {
                    Asks::Step
                } else {
                    Asks::StepWithoutNumber2
                };
                bytes.push(asks.code());
                record.write_to(&mut bytes);
                bytes.extend(event.to_bytes());
            }
        }
        bytes
    }

    /// The request at the front of the input, and what follows it.
    pub fn split_first(input: &[u8]) -> Option<(Request, &[u8])> {
        let (&first, rest) = input.split_first()?;
        let asks = Asks::from_code(first)?;
        match asks {
            Asks::Reset => {
                let (body, rest) = rest.split_at_checked(RESET_BYTES)?;
                let (parents, value) = body[1..].split_first_chunk::<NODES>()?;
                let request = Request::Reset {
                    count: body[0],
                    parents: *parents,
                    first_value: u64::from_be_bytes(value.try_into().ok()?),
                };
                Some((request, rest))
            }
            Asks::Step | Asks::StepWithoutNumber2 => {
                let (body, rest) = rest.split_at_checked(STEP_BYTES)?;
                let (record, event) = body.split_last_chunk::<EVENT_BYTES>()?;
                let request = Request::Step {
                    record: Box::new(Record::from_bytes(record)?),
                    event: Event::from_bytes(event),
                    tests_number_2: asks == Asks::Step,
                };
                Some((request, rest))
            }
        }
    }

    /// The answer, where document 01 gives one.
    pub fn answer(&self) -> Option<Answer> {
        match self {
            Request::Reset {
                count,
                parents,
                first_value,
            } => Some(reset(*count, parents, *first_value)),
            Request::Step {
                record,
                event,
                tests_number_2: true,
            } => Some(step(record, event)),
            Request::Step {
                record,
                event,
                tests_number_2: false,
            } => step_without_number_2(record, event),
        }
    }
}

impl Answer {
    pub fn write_to(&self, bytes: &mut Vec<u8>) {
        bytes.push(self.number);
        bytes.extend(self.value.to_be_bytes());
        self.record.write_to(bytes);
    }

    pub fn from_bytes(bytes: &[u8]) -> Option<Answer> {
        let (&number, rest) = bytes.split_first()?;
        let (value, record) = rest.split_first_chunk::<8>()?;
        Some(Answer {
            number,
            value: u64::from_be_bytes(*value),
            record: Record::from_bytes(record)?,
        })
    }
}

/// All answers to an input, or nothing where document 01 leaves one of them open.
pub fn answers(mut input: &[u8]) -> Option<Vec<u8>> {
    let mut output = Vec::new();
    while let Some((request, rest)) = Request::split_first(input) {
        request.answer()?.write_to(&mut output);
        input = rest;
    }
    Some(output)
}
