//! An independent implementation of the paper, written by hand from its words alone.
//! It is compared with the proved library and serves as its speed baseline.
//! Nothing but `generate` and `listing` allocates.

#![forbid(unsafe_code)]

pub mod check;
pub mod fill;
pub mod generate;
mod head;
pub mod listing;
pub mod measure;
pub mod refusal;
mod registry;
pub mod rows;
pub mod text;
pub mod varint;
pub mod walk;
pub mod write;

/// The most bytes of a document, rows of a table, and the largest length, count or number.
pub const LIMIT: u32 = 16_777_215;

/// The deepest position.
pub const DEPTH: u32 = 32;
