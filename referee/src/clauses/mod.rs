//! Number 2: the list of document 01 of what is not a configuration, clause by clause.
//!
//! Where two clauses of the list cover one field, each has its own case here, so that a record can break
//! any clause alone: beyond the last node a full slot is [`Clause::FullSlotBeyond`] and everything else is
//! [`Clause::FieldBeyond`].

mod link;
mod list;
mod node;

pub use list::Clause;

use crate::record::{LinkRecord, NodeRecord, Record};
use crate::tree::{Tree, NODES};
use list::Breaches;

/// The clauses that a record on a good tree breaks, each as often as it is broken; none for a configuration.
pub fn breaches(tree: &Tree, record: &Record) -> Vec<Clause> {
    let mut list = Breaches::default();
    list.add(record.parents[0] != 0, Clause::ParentAtRoot);
    for node in tree.nodes() {
        list.node(tree, record, node);
        list.link(&record.links[node]);
    }
    list.add(full_slot(&record.links[0]), Clause::FullSlotAtRoot);
    for node in tree.beyond() {
        list.add(full_slot(&record.links[node]), Clause::FullSlotBeyond);
        list.add(field_beyond(record, node), Clause::FieldBeyond);
    }
    list.0
}

fn full_slot(link: &LinkRecord) -> bool {
    [link.a, link.b, link.c, link.d, link.e] != [0; 5]
}

/// A field that is not zero at this node, apart from the slots. Every field is named, so that none is forgotten.
fn field_beyond(record: &Record, node: usize) -> bool {
    let Record {
        count: _,
        parents,
        rights,
        entries,
        to_probe,
        pending,
        nodes,
        links,
    } = record;
    let beside_slots = LinkRecord {
        a: 0,
        b: 0,
        c: 0,
        d: 0,
        e: 0,
        ..links[node]
    };
    parents[node] != 0
        || rights[node] != 0
        || entries[node] != [0; NODES]
        || to_probe[node].contains(&true)
        || pending[node].contains(&true)
        || nodes[node] != NodeRecord::default()
        || beside_slots != LinkRecord::default()
}
