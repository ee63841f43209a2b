//! The trail: its bytes, and the lines that the program `trail` prints for them.

use crate::configuration::Configuration;
use crate::event::{Event, EVENT_BYTES};
use crate::step::{number, Outcome};
use crate::tree::Tree;
use std::fmt;
use std::ops::RangeInclusive;

pub const VERSION: u8 = 1;
/// A record has to be wholly within this many bytes from the input's start.
pub const LIMIT: usize = 65_536;
/// First value in 8 bytes, then the parents of nodes 1 upward.
pub const FIRST_LENGTH: RangeInclusive<usize> = 9..=23;

/// A trail, as far as it can be read.
#[derive(Clone, Debug, PartialEq, Eq)]
pub struct Trail {
    /// The tree and the first value, unless the first record is bad.
    pub first: Option<(Tree, u64)>,
    pub events: Vec<Event>,
    pub bad: Option<Bad>,
}

/// A bad record: the offset of the first byte of its length, and why.
#[derive(Clone, Copy, Debug, PartialEq, Eq)]
pub struct Bad {
    pub offset: usize,
    pub why: Why,
}

#[derive(Clone, Copy, Debug, PartialEq, Eq)]
pub enum Why {
    Version,
    FirstMissing,
    BeyondLimit,
    CutShort,
    Length(usize),
    Tree,
}

impl fmt::Display for Why {
    fn fmt(&self, f: &mut fmt::Formatter) -> fmt::Result {
        match self {
            Why::Version => write!(f, "wrong or missing version"),
            Why::FirstMissing => write!(f, "the first record is missing"),
            Why::BeyondLimit => {
                write!(f, "the record is not wholly within the first {LIMIT} bytes")
            }
            Why::CutShort => write!(f, "the record is cut short"),
            Why::Length(length) => write!(f, "wrong length {length}"),
            Why::Tree => write!(f, "bad tree"),
        }
    }
}

impl Trail {
    pub fn read(input: &[u8]) -> Trail {
        let mut trail = Trail {
            first: None,
            events: Vec::new(),
            bad: None,
        };
        if input.first() != Some(&VERSION) {
            let why = Why::Version;
            trail.bad = Some(Bad { offset: 0, why });
            return trail;
        }
        let mut offset = 1;
        if let Err(why) = trail.read_records(input, &mut offset) {
            trail.bad = Some(Bad { offset, why });
        }
        trail
    }

    /// Reads to the end of the input. On an error `offset` is where the bad record begins.
    fn read_records(&mut self, input: &[u8], offset: &mut usize) -> Result<(), Why> {
        let first = record_at(input, *offset, FIRST_LENGTH)?.ok_or(Why::FirstMissing)?;
        let (value, parents) = first.split_first_chunk().expect("at least 9 bytes");
        let tree = Tree::of_parents(parents).ok_or(Why::Tree)?;
        self.first = Some((tree, u64::from_be_bytes(*value)));
        *offset += 2 + first.len();
        while let Some(body) = record_at(input, *offset, EVENT_BYTES..=EVENT_BYTES)? {
            let bytes = body.try_into().expect("the length of an event");
            self.events.push(Event::from_bytes(bytes));
            *offset += 2 + body.len();
        }
        Ok(())
    }

    /// Calls `see` for each event with the configuration before it and what came of it; gives the last one.
    pub fn run(
        &self,
        mut see: impl FnMut(&Configuration, &Event, &Outcome),
    ) -> Option<Configuration> {
        let (tree, first_value) = self.first?;
        let mut configuration = Configuration::reset(tree, first_value);
        for event in &self.events {
            let outcome = configuration.step(event);
            see(&configuration, event, &outcome);
            if let Ok(step) = outcome {
                configuration = step.configuration;
            }
        }
        Some(configuration)
    }

    /// The bytes of a trail with so many events.
    pub fn size(tree: &Tree, events: usize) -> usize {
        1 + 2 + 8 + (tree.count() - 1) + events * (2 + EVENT_BYTES)
    }

    pub fn to_bytes(tree: &Tree, first_value: u64, events: &[Event]) -> Vec<u8> {
        let parents = (1..tree.count()).map(|node| tree.parent(node) as u8);
        let first: Vec<u8> = first_value
            .to_be_bytes()
            .into_iter()
            .chain(parents)
            .collect();
        let mut bytes = vec![VERSION];
        write_record(&mut bytes, &first);
        for event in events {
            write_record(&mut bytes, &event.to_bytes());
        }
        bytes
    }
}

/// The body of the record whose length begins at `offset`; nothing where the input ends there.
fn record_at(
    input: &[u8],
    offset: usize,
    lengths: RangeInclusive<usize>,
) -> Result<Option<&[u8]>, Why> {
    if offset == input.len() {
        return Ok(None);
    }
    if offset + 2 > LIMIT {
        return Err(Why::BeyondLimit);
    }
    let head = input.get(offset..offset + 2).ok_or(Why::CutShort)?;
    let length = usize::from(u16::from_be_bytes([head[0], head[1]]));
    if !lengths.contains(&length) {
        return Err(Why::Length(length));
    }
    let end = offset + 2 + length;
    if end > LIMIT {
        return Err(Why::BeyondLimit);
    }
    let body = input.get(offset + 2..end).ok_or(Why::CutShort)?;
    Ok(Some(body))
}

pub fn write_record(bytes: &mut Vec<u8>, body: &[u8]) {
    bytes.extend((body.len() as u16).to_be_bytes());
    bytes.extend(body);
}

/// Index, kind, node, number, answer value.
pub fn line(index: usize, event: &Event, outcome: &Outcome) -> String {
    let Event { kind, node, .. } = event;
    let number = number(outcome).code();
    let value = outcome.as_ref().map_or(0, |step| step.value);
    format!("{index} {kind} {node} {number} {value}")
}

/// The last line: `end` and the node names in order, or `bad` and the offset.
pub fn last_line(bad: Option<Bad>, last: Option<&Configuration>) -> String {
    match (bad, last) {
        (Some(bad), _) => format!("bad {}", bad.offset),
        (None, Some(configuration)) => {
            let names = configuration.names().map(|name| format!(" {name}"));
            format!("end{}", names.collect::<String>())
        }
        (None, None) => unreachable!("a trail without a first record is bad"),
    }
}

/// Everything that the program prints for an input.
pub fn output(input: &[u8]) -> String {
    let trail = Trail::read(input);
    let mut lines = Vec::new();
    let last = trail.run(|_, event, outcome| lines.push(line(lines.len() + 1, event, outcome)));
    lines.push(last_line(trail.bad, last.as_ref()));
    lines.join("\n") + "\n"
}
