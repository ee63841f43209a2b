//! The rules of the event table: each row's needs in its order, and what it does.

pub mod acquire;
pub mod evict;
pub mod grant;
pub mod leaf;
pub mod probe;
mod rule;
mod scene;
mod settle;

pub use rule::{Need, Rule};
pub use scene::{Act, Scene};
