//! The raw record of a configuration, as docs/FORMAT.md lays it out. It can hold bad codes.

use crate::tree::{Tree, NODES};

/// The bytes of a node's own fields, of a link's, and of a record.
pub const NODE_BYTES: usize = 15;
pub const LINK_BYTES: usize = 22;
pub const RECORD_BYTES: usize =
    1 + 2 * NODES + 3 * NODES * NODES + (NODE_BYTES + LINK_BYTES) * NODES;

/// One row for each node, one cell for each node.
pub type Rows<T> = [[T; NODES]; NODES];

#[derive(Clone, Debug, Default, PartialEq, Eq)]
pub struct Record {
    pub count: u8,
    pub parents: [u8; NODES],
    pub rights: [u8; NODES],
    pub entries: Rows<u8>,
    pub to_probe: Rows<bool>,
    pub pending: Rows<bool>,
    pub nodes: [NodeRecord; NODES],
    pub links: [LinkRecord; NODES],
}

#[derive(Clone, Copy, Debug, Default, PartialEq, Eq)]
pub struct NodeRecord {
    pub dirty: bool,
    pub value: u64,
    pub phase: u8,
    pub purpose: u8,
    pub requester: u8,
    pub probe: bool,
    pub cap: u8,
    pub release: u8,
}

/// The link of a node to its parent.
#[derive(Clone, Copy, Debug, Default, PartialEq, Eq)]
pub struct LinkRecord {
    pub a: u8,
    pub b: u8,
    pub c: u8,
    pub kept: u8,
    pub up: u64,
    pub d: u8,
    pub down: u64,
    pub e: u8,
}

impl Record {
    /// The tree, unless it is bad (number 1).
    pub fn tree(&self) -> Option<Tree> {
        Tree::new(self.count, &self.parents)
    }

    /// The record in these bytes, unless they are too few or hold a flag that is neither 0 nor 1.
    pub fn from_bytes(bytes: &[u8]) -> Option<Record> {
        let mut source = Source { bytes };
        let mut record = Record {
            count: source.byte()?,
            ..Record::default()
        };
        source.fill(&mut record.parents)?;
        source.fill(&mut record.rights)?;
        for row in &mut record.entries {
            source.fill(row)?;
        }
        for cell in record.to_probe.iter_mut().flatten() {
            *cell = source.flag()?;
        }
        for cell in record.pending.iter_mut().flatten() {
            *cell = source.flag()?;
        }
        for node in &mut record.nodes {
            *node = NodeRecord {
                dirty: source.flag()?,
                value: source.number()?,
                phase: source.byte()?,
                purpose: source.byte()?,
                requester: source.byte()?,
                probe: source.flag()?,
                cap: source.byte()?,
                release: source.byte()?,
            };
        }
        for link in &mut record.links {
            *link = LinkRecord {
                a: source.byte()?,
                b: source.byte()?,
                c: source.byte()?,
                kept: source.byte()?,
                up: source.number()?,
                d: source.byte()?,
                down: source.number()?,
                e: source.byte()?,
            };
        }
        Some(record)
    }

    pub fn write_to(&self, bytes: &mut Vec<u8>) {
        bytes.push(self.count);
        bytes.extend(self.parents);
        bytes.extend(self.rights);
        bytes.extend(self.entries.as_flattened());
        bytes.extend(self.to_probe.iter().flatten().map(|&flag| u8::from(flag)));
        bytes.extend(self.pending.iter().flatten().map(|&flag| u8::from(flag)));
        for &NodeRecord {
            dirty,
            value,
            phase,
            purpose,
            requester,
            probe,
            cap,
            release,
        } in &self.nodes
        {
            bytes.push(u8::from(dirty));
            bytes.extend(value.to_be_bytes());
            bytes.extend([phase, purpose, requester, u8::from(probe), cap, release]);
        }
        for &LinkRecord {
            a,
            b,
            c,
            kept,
            up,
            d,
            down,
            e,
        } in &self.links
        {
            bytes.extend([a, b, c, kept]);
            bytes.extend(up.to_be_bytes());
            bytes.push(d);
            bytes.extend(down.to_be_bytes());
            bytes.push(e);
        }
    }
}

/// Bytes taken from the front.
struct Source<'a> {
    bytes: &'a [u8],
}

impl Source<'_> {
    fn byte(&mut self) -> Option<u8> {
        let (&first, rest) = self.bytes.split_first()?;
        self.bytes = rest;
        Some(first)
    }

    fn flag(&mut self) -> Option<bool> {
        match self.byte()? {
            0 => Some(false),
            1 => Some(true),
            _ => None,
        }
    }

    fn number(&mut self) -> Option<u64> {
        let (first, rest) = self.bytes.split_first_chunk::<8>()?;
        self.bytes = rest;
        Some(u64::from_be_bytes(*first))
    }

    fn fill(&mut self, row: &mut [u8; NODES]) -> Option<()> {
        let (first, rest) = self.bytes.split_first_chunk::<NODES>()?;
        *row = *first;
        self.bytes = rest;
        Some(())
    }
}
