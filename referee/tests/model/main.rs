//! The model held to document 01, to docs/FORMAT.md and to the stored examples.

mod clauses;
mod common;
mod edges;
mod examples;
mod formats;
mod module_order;
mod numbers;
mod reader_errors;
mod text_form;
mod trail_bytes;
