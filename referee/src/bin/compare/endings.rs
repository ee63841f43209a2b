//! What follows the last request of a row: nothing, or bytes at which `answer` has to end.

use crate::random::Random;
use referee::answer::Request;
use referee::record::NODE_BYTES;
use referee::tree::NODES;

/// One of the ways for `answer` to end, made from a request.
pub fn ending(random: &mut Random, request: &Request) -> Vec<u8> {
    let mut bytes = request.to_bytes();
    match random.below(4) {
        0 => return Vec::new(),
        1 => {
            bytes.truncate(random.between(1, bytes.len() - 1));
            return bytes;
        }
        2 => bytes[0] = random.pick(&[0, 4, 255]),
        _ => spoil_flag(random, &mut bytes),
    }
    bytes.extend(request.to_bytes());
    bytes
}

/// Sets a flag of a step's record to neither 0 nor 1. A reset has none, so its first byte is spoiled.
fn spoil_flag(random: &mut Random, bytes: &mut [u8]) {
    let sets = 1 + 1 + 2 * NODES + NODES * NODES;
    let nodes = sets + 2 * NODES * NODES;
    let node = nodes + NODE_BYTES * random.below(NODES);
    let (dirty, probe) = (node, node + 12);
    let cell = sets + random.below(2 * NODES * NODES);
    match bytes.get_mut(random.pick(&[cell, dirty, probe])) {
        Some(flag) => *flag = random.pick(&[2, 3, 255]),
        None => bytes[0] = 0,
    }
}
