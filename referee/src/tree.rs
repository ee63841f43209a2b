//! The tree of nodes: node 0 is the root, every other node's parent has a smaller number.

use std::ops::Range;

/// The node limit.
pub const NODES: usize = 16;

/// A good tree. A bad one (number 1) can't be made.
#[derive(Clone, Copy, Debug, PartialEq, Eq)]
pub struct Tree {
    count: usize,
    parents: [usize; NODES],
}

impl Tree {
    /// Number 1: a node count not 2..16, or, from node 1 upward, a parent not smaller than its node.
    pub fn new(count: u8, parents: &[u8; NODES]) -> Option<Tree> {
        let count = usize::from(count);
        if !(2..=NODES).contains(&count) {
            return None;
        }
        let mut tree = Tree {
            count,
            parents: [0; NODES],
        };
        for (node, &parent) in parents.iter().enumerate().take(count).skip(1) {
            tree.parents[node] = usize::from(parent);
            if tree.parents[node] >= node {
                return None;
            }
        }
        Some(tree)
    }

    /// The tree whose nodes 1 upward have these parents.
    pub fn of_parents(parents: &[u8]) -> Option<Tree> {
        if parents.len() >= NODES {
            return None;
        }
        let mut all = [0; NODES];
        all[1..=parents.len()].copy_from_slice(parents);
        Tree::new(parents.len() as u8 + 1, &all)
    }

    pub fn count(&self) -> usize {
        self.count
    }

    pub fn nodes(&self) -> Range<usize> {
        0..self.count
    }

    /// The nodes from the last one's successor up to the limit.
    pub fn beyond(&self) -> Range<usize> {
        self.count..NODES
    }

    pub fn parent(&self, node: usize) -> usize {
        self.parents[node]
    }

    pub fn is_child(&self, child: usize, node: usize) -> bool {
        (1..self.count).contains(&child) && self.parents[child] == node
    }

    pub fn children(&self, node: usize) -> impl Iterator<Item = usize> + '_ {
        (1..self.count).filter(move |&child| self.parents[child] == node)
    }

    pub fn is_leaf(&self, node: usize) -> bool {
        self.children(node).next().is_none()
    }
}
