//! Random trees, good and bad.

use crate::random::Random;
use referee::tree::{Tree, NODES};

/// A good tree: small ones often, chains and stars among the shapes.
pub fn good(random: &mut Random) -> Tree {
    let count = if random.percent(60) {
        random.between(2, 5)
    } else {
        random.between(2, NODES)
    };
    with_count(random, count)
}

pub fn with_count(random: &mut Random, count: usize) -> Tree {
    let shape = random.below(4);
    let parents: Vec<u8> = (1..count)
        .map(|node| match shape {
            0 => node - 1,
            1 => random.below(node.min(2)),
            2 => node - 1 - random.below(node.min(3)),
            _ => random.below(node),
        })
        .map(|parent| parent as u8)
        .collect();
    Tree::of_parents(&parents).expect("each parent is smaller than its node")
}

/// The node count and the parents of a tree with number 1.
pub fn bad(random: &mut Random) -> (u8, [u8; NODES]) {
    let tree = good(random);
    let mut parents = parents(&tree);
    if random.percent(40) {
        let counts = [0, 1, NODES as u8 + 1, NODES as u8 + 2, 128, 255];
        return (random.pick(&counts), parents);
    }
    let node = random.between(1, tree.count() - 1);
    parents[node] = bad_parent(random, node);
    (tree.count() as u8, parents)
}

/// A parent that is not smaller than its node.
pub fn bad_parent(random: &mut Random, node: usize) -> u8 {
    match random.below(4) {
        0 => node as u8,
        1 => node as u8 + 1,
        2 => 255,
        _ => random.between(node, 255) as u8,
    }
}

pub fn parents(tree: &Tree) -> [u8; NODES] {
    let mut parents = [0; NODES];
    for node in tree.nodes() {
        parents[node] = tree.parent(node) as u8;
    }
    parents
}
