//! The archive libsxf.a for Rust, which `include/sxf.h` describes: its calls, its answers, and the names of the numbers that go with them.
//!
//! Programs use the crate `sxf`, which has safe types. This one is what that crate, and the tests that try the archive without it, have in
//! common: every call is declared here and nowhere else in Rust, and every number has its one name here, the same as in the definitions
//! (`crates/layout/specs`).
//!
//! | Module | Subject |
//! |---|---|
//! | [`calls`] | the calls and the structs that they answer, as the header declares them |
//! | [`lent`] | the same calls for slices that are lent: the one module with unsafe code |
//! | [`refusals`] | the refusals |
//! | [`codings`] | the codings that `sxf_to_utf16` and `sxf_from_utf16` are asked for |
//! | [`units`] | the units that `sxf_unit_of` and `sxf_coordinate_of` answer |
//! | [`dimensions`] | the numbers of a point that `sxf_coordinate_of` is asked for |
//! | [`kinds`] | what `sxf_coordinate_of` and `sxf_value_of` say that a number is |
//! | [`years`] | the nine settings, and the year of each feature |
//! | [`fields`] | where the fields of a sheet stand, and how wide they are; the limit |
//! | [`index`] | how long a code index is, and which number of an entry or a pick has which index |
//! | [`row`] | which number of the record table has which index |
//! | [`reference`](mod@reference) | the bits of a record's reference bytes |
#![deny(missing_docs)]
#![deny(unsafe_code)]
#![deny(unsafe_op_in_unsafe_fn)]

pub mod calls;
pub mod codings;
pub mod dimensions;
pub mod fields;
pub mod index;
pub mod kinds;
// The one module that may: it calls the archive.
#[allow(unsafe_code)]
pub mod lent;
pub mod reference;
pub mod refusals;
pub mod row;
pub mod units;
pub mod years;

pub use calls::{Checked, Coordinate, Corners, Head, Hop, Index, Record, Unit, Value, Visibility, Written};
pub use fields::{Carried, Field, Rest, LIMIT};

/// "Points 65535 is a mark: the count is the word at +24" (01, Record).
pub const MARK: u64 = 65_535;

/// The version of `include/sxf.h` that this crate declares, `SXF_VERSION` there.
pub const VERSION: u32 = 4;

// A length is 64 bits wide in the archive, which is for x86-64.
const _: () = assert!(usize::BITS == 64);
