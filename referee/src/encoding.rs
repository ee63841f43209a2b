//! A configuration as a record, and back where the record is one.

use crate::clauses::{breaches, Clause};
use crate::codes::{Acquire, Cap, Confirmation, DownCode, Entry, Phase, Purpose, Rights, UpCode};
use crate::configuration::Configuration;
use crate::link::{Down, Link, Up};
use crate::node::Node;
use crate::record::{LinkRecord, NodeRecord, Record};
use crate::tree::Tree;

impl Configuration {
    /// The configuration that a record on a good tree holds, or the clauses of number 2 that it breaks.
    pub fn from_record(tree: Tree, record: &Record) -> Result<Configuration, Vec<Clause>> {
        let broken = breaches(&tree, record);
        if !broken.is_empty() {
            return Err(broken);
        }
        let mut configuration = Configuration::reset(tree, 0);
        for node in tree.nodes() {
            configuration.nodes[node] = decoded_node(record, node);
            configuration.links[node] = decoded_link(&record.links[node]);
        }
        Ok(configuration)
    }

    pub fn to_record(&self) -> Record {
        let mut record = Record {
            count: self.tree.count() as u8,
            ..Record::default()
        };
        for node in self.tree.nodes() {
            let from = &self.nodes[node];
            record.parents[node] = self.tree.parent(node) as u8;
            record.rights[node] = from.rights.code();
            record.entries[node] = from.entries.map(Entry::code);
            record.to_probe[node] = from.to_probe;
            record.pending[node] = from.pending;
            record.nodes[node] = encoded_node(from);
            record.links[node] = encoded_link(&self.links[node]);
        }
        record
    }
}

fn encoded_node(node: &Node) -> NodeRecord {
    NodeRecord {
        dirty: node.dirty,
        value: node.value,
        phase: node.phase.code(),
        purpose: node.purpose.map_or(0, Purpose::code),
        requester: node.requester.map_or(0, |child| child as u8),
        probe: node.probe.is_some(),
        cap: node.probe.map_or(0, Cap::code),
        release: node.release.map_or(0, |child| child as u8),
    }
}

fn encoded_link(link: &Link) -> LinkRecord {
    LinkRecord {
        a: link.a.map_or(0, Acquire::code),
        b: link.b.map_or(0, Cap::code),
        c: link.c.map_or(0, |message| message.code().code()),
        kept: link.c.and_then(Up::kept).map_or(0, Rights::code),
        up: link.c.and_then(Up::data).unwrap_or(0),
        d: link.d.map_or(0, |message| message.code().code()),
        down: link.d.and_then(Down::data).unwrap_or(0),
        e: link.e.map_or(0, Confirmation::code),
    }
}

fn decoded_node(record: &Record, node: usize) -> Node {
    let from = &record.nodes[node];
    Node {
        rights: Rights::from_code(record.rights[node]).expect("rights"),
        dirty: from.dirty,
        value: from.value,
        entries: record.entries[node].map(|code| Entry::from_code(code).expect("entry")),
        phase: Phase::from_code(from.phase).expect("phase"),
        purpose: Purpose::from_code(from.purpose),
        requester: child(from.requester),
        probe: Cap::from_code(from.cap),
        release: child(from.release),
        to_probe: record.to_probe[node],
        pending: record.pending[node],
    }
}

fn decoded_link(from: &LinkRecord) -> Link {
    let kept = Rights::from_code(from.kept).expect("kept rights");
    Link {
        a: Acquire::from_code(from.a),
        b: Cap::from_code(from.b),
        c: UpCode::from_code(from.c).map(|code| Up::of(code, kept, from.up)),
        d: DownCode::from_code(from.d).map(|code| Down::of(code, from.down)),
        e: Confirmation::from_code(from.e),
    }
}

fn child(code: u8) -> Option<usize> {
    (code != 0).then_some(usize::from(code))
}
