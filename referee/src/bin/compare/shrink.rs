//! Making an input small that shows a difference.

use referee::answer::Request;
use referee::trail::VERSION;

/// How many inputs are tried at most: each try starts the program once.
const TRIES: usize = 800;

pub struct Shrink<F: FnMut(&[u8]) -> bool> {
    differs: F,
    tries: usize,
}

impl<F: FnMut(&[u8]) -> bool> Shrink<F> {
    pub fn new(differs: F) -> Shrink<F> {
        Shrink { differs, tries: 0 }
    }

    /// The smallest input found: first whole pieces go, then single bytes become 0.
    pub fn smallest(mut self, pieces: Vec<Vec<u8>>) -> Vec<u8> {
        let pieces = self.fewer_pieces(pieces);
        self.more_zeros(pieces.concat())
    }

    fn try_one(&mut self, input: &[u8]) -> bool {
        self.tries += 1;
        self.tries <= TRIES && (self.differs)(input)
    }

    fn fewer_pieces(&mut self, mut pieces: Vec<Vec<u8>>) -> Vec<Vec<u8>> {
        let mut size = pieces.len().div_ceil(2);
        while size > 0 {
            let mut start = 0;
            while start < pieces.len() {
                let mut fewer = pieces.clone();
                fewer.drain(start..(start + size).min(pieces.len()));
                if self.try_one(&fewer.concat()) {
                    pieces = fewer;
                } else {
                    start += size;
                }
            }
            size = if size == 1 { 0 } else { size.div_ceil(2) };
        }
        pieces
    }

    fn more_zeros(&mut self, mut input: Vec<u8>) -> Vec<u8> {
        let mut size = input.len().next_power_of_two();
        while size > 0 {
            for start in (0..input.len()).step_by(size) {
                let end = (start + size).min(input.len());
                if input[start..end].iter().all(|&byte| byte == 0) {
                    continue;
                }
                let mut zeroed = input.clone();
                zeroed[start..end].fill(0);
                if self.try_one(&zeroed) {
                    input = zeroed;
                }
            }
            size /= 2;
        }
        input
    }
}

/// A trail's version, records, and whatever follows them.
pub fn trail_pieces(mut input: &[u8]) -> Vec<Vec<u8>> {
    let mut pieces = Vec::new();
    if let Some((&VERSION, rest)) = input.split_first() {
        pieces.push(vec![VERSION]);
        input = rest;
    }
    while let Some((head, rest)) = input.split_first_chunk::<2>() {
        let length = usize::from(u16::from_be_bytes(*head)).min(rest.len());
        pieces.push(input[..2 + length].to_vec());
        input = &rest[length..];
    }
    if !input.is_empty() {
        pieces.push(input.to_vec());
    }
    pieces
}

/// A row's requests, and whatever follows them.
pub fn answer_pieces(mut input: &[u8]) -> Vec<Vec<u8>> {
    let mut pieces = Vec::new();
    while let Some((_, rest)) = Request::split_first(input) {
        pieces.push(input[..input.len() - rest.len()].to_vec());
        input = rest;
    }
    if !input.is_empty() {
        pieces.push(input.to_vec());
    }
    pieces
}
