//! The referee: an independent model of the cache line protocol, written from document 01 alone.
//!
//! An event goes this way: bytes, a record, a configuration, a judged event, an effect, an answer, a line. Each module
//! uses only those before it in this list:
//!
//! - `lists`: the shapes of the lists below
//! - [`tree`]: the tree (number 1)
//! - [`codes`]: the lists of document 01 with their codes
//! - [`node`], [`link`], [`configuration`]: what a configuration holds, and the reset
//! - [`record`]: the raw record of a configuration
//! - [`clauses`]: what is not a configuration (number 2)
//! - `encoding`: a configuration as a record and back
//! - [`event`]: an event and its bytes
//! - [`rules`]: each row's needs and what it does
//! - [`kinds`]: the event table, a kind in a row
//! - [`refusal`]: the numbers, and why
//! - [`judge`]: the first number that applies
//! - [`step`]: the answer
//! - [`answer`]: the program `answer`
//! - [`trail`]: the program `trail`
//! - [`text`]: a trail in text
//! - [`explain`]: a trail's lines in the paper's words

pub mod answer;
pub mod clauses;
pub mod codes;
pub mod configuration;
mod encoding;
pub mod event;
pub mod explain;
pub mod judge;
pub mod kinds;
pub mod link;
mod lists;
pub mod node;
pub mod record;
pub mod refusal;
pub mod rules;
pub mod step;
pub mod text;
pub mod trail;
pub mod tree;
