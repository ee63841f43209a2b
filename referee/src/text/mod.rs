//! The text form of a trail: written by hand, turned into bytes and back.
//!
//! ```text
//! tree 0 0 first 7        # the parents of nodes 1 upward, and the first value
//! store-miss 1            # kind, node
//! take-acquire 0 from 1   # 7, 11 and 17 name a child with "from", 8 with "to"
//! send-grant 0 sole       # or "shared"
//! store 1 value 9
//! 4 1 0 0                 # any event as four numbers: kind, node, other, value
//! ```

mod parse;
mod print;
mod words;

pub use parse::{to_bytes, TextError};
pub use print::{event_line, from_bytes};

/// A trail in bytes begins with byte 1 or another byte that no text begins with.
pub fn is_bytes(input: &[u8]) -> bool {
    match input.first() {
        Some(first) => !first.is_ascii_graphic() && !first.is_ascii_whitespace(),
        None => true,
    }
}
