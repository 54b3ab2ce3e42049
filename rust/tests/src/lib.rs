//! Holds the archive of the proved library against `second`, the independent
//! reader and writer: both are given the same sheets, tables, texts and code
//! indexes, right ones and damaged ones, and must answer alike in every number
//! and byte.
//!
//! The words are the documents'. A case is told by its phase, its number and
//! the seed of the run, and is the same in every run that has it.

pub mod archive;
pub mod blocks;
pub mod coordinates;
pub mod each;
pub mod features;
pub mod headers;
pub mod heads;
pub mod hop_damage;
pub mod hops;
pub mod index_damage;
pub mod indexes;
pub mod judge;
pub mod known;
pub mod large;
pub mod limits;
pub mod memory;
pub mod numbers;
pub mod phases;
pub mod places;
pub mod reasons;
pub mod sheet_damage;
pub mod sheets;
pub mod stored;
pub mod sums;
pub mod table_damage;
pub mod tables;
pub mod tails;
pub mod tally;
pub mod texts;
