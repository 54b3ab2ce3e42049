//! A second reader and writer of SXF 4.0 sheets.
//!
//! It is here to be held against the proved library: both are given the same
//! sheets and tables, and every answer and every refusal must agree. It is
//! also what the proved library's speed is measured against. For that it is
//! written from the documents alone: 01, with the tables of document 000 that
//! 01 points to, and 02, with the published mappings of the three codings
//! (`codings/`). It shares no code and no table with the proved library.
//! Of single elements and items asked for out of their sheets the documents
//! say only what they stand for: how such a question is refused, and in which
//! order, is taken from `include/sxf.h`.
//!
//! Nobody should link it, save the programs that compare and time the two: it
//! has tests and no proof, and it follows the definition as one reader
//! understood it.
//!
//! The words are the documents': passport, descriptor, tail, record, part, item,
//! coding, block, entry, hop, hit, place, refusal. Each refusal is checked in
//! the documents' order, and the first that applies is the answer; no input
//! makes a call panic.

#![forbid(unsafe_code)]
#![warn(missing_docs)]

mod bytes;
mod codings;
mod coordinate;
mod floating;
mod head;
mod hop;
mod index;
mod item;
mod meanings;
mod record;
mod reference;
mod refusal;
mod shape;
mod sheet;
mod table;
mod writer;
mod years;

#[cfg(test)]
mod tests;

pub use codings::{from_utf16, to_utf16};
pub use coordinate::{coordinate, Coordinate, Number};
pub use head::{cleared, Head, Tails};
pub use hop::{first_with, frame_of, Hit, Hop};
pub use index::{index_build, index_build_of_kind, index_check, index_read, index_select, select, BlockKind, Index};
pub use meanings::{corners, unit, value, visibility, Unit, Value};
pub use record::Record;
pub use refusal::Refusal;
pub use sheet::{check, read, record_at, Reading, Sizes};
pub use table::Table;
pub use writer::write;

/// The most bytes a sheet may have. "Raise it to 67,108,864 bytes" (document 02,
/// request 7), from the 16,777,216 of document 01.
pub(crate) const LIMIT: usize = 67_108_864;
