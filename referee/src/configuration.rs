//! A configuration: the tree, and what document 01 says that each node and each link holds.

use crate::codes::Rights;
use crate::link::Link;
use crate::node::{Name, Node};
use crate::tree::{Tree, NODES};

#[derive(Clone, Debug, PartialEq, Eq)]
pub struct Configuration {
    pub tree: Tree,
    pub nodes: [Node; NODES],
    /// The link of each node to its parent.
    pub links: [Link; NODES],
}

impl Configuration {
    /// Root Tip, clean, first value; all others N with value 0; everything else idle and empty.
    pub fn reset(tree: Tree, first_value: u64) -> Configuration {
        let mut nodes = [Node::quiet(Rights::N, 0); NODES];
        nodes[0] = Node::quiet(Rights::Tip, first_value);
        Configuration {
            tree,
            nodes,
            links: [Link::default(); NODES],
        }
    }

    pub fn names(&self) -> impl Iterator<Item = Name> + '_ {
        self.tree.nodes().map(|node| self.nodes[node].name())
    }
}
