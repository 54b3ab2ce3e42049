//! Sheets of SXF 4.0, read and written by the proved library.
//!
//! What a sheet is, and when it is refused, is document 01's, as 02 amends it ("the document" below), and the names here are its own words.
//!
//! ```
//! use sxf::{Head, Setting, Sheet, Writer};
//!
//! let head = Head { designation: b"N-37-004", scale: 10_000, ..Head::PLAIN };
//! let bytes = Writer::new(head)?.write(Setting::Y1999)?;
//! let sheet = Sheet::read(&bytes, Setting::Y2017)?;
//! assert_eq!(sheet.head()?.designation, b"N-37-004");
//! assert_eq!(sheet.records().count(), 0);
//!
//! let refusal = Sheet::read(&bytes[..451], Setting::Y2017).unwrap_err();
//! assert_eq!(refusal.name(), "SHORT");
//! # Ok::<(), sxf::Refusal>(())
//! ```
//!
//! | Module | Subject |
//! |---|---|
//! | [`sheet`] | a sheet is checked, read and asked: [`check`], [`record_at`], [`Sheet`] |
//! | [`head`] | what stands before the records: [`Head`] and [`Corners`] |
//! | [`tails`](mod@tails) | what stands after the first zero of a text field, and whether it is clean: [`tails()`], [`Tails`], [`Tail`] |
//! | [`record`], [`part`], [`item`] | what a record holds |
//! | [`text`] | texts with their codings, turned into strings and back: [`Text`], [`Coding`] |
//! | [`reference`](mod@reference) | the three reference bytes of a record |
//! | [`coordinates`] | units, numbers and coordinates, each unit a type of its own |
//! | [`table`] | the record table as the library fills and takes it |
//! | [`row`], [`fields`] | the names of the table's columns, and of the places in a sheet |
//! | [`index`], [`pick`] | a code index beside the sheet, and selections by class code: [`Index`], [`select`], [`Pick`] |
//! | [`hop`] | the frame, and the first record with a class code, without reading the sheet: [`frame`], [`first_with`] |
//! | [`writer`], [`new_item`] | a sheet is written: [`write()`], [`Writer`] |
//! | [`years`] | which features a sheet has, and from which year |
//! | [`refusal`], [`setting`] | refusals, and the nine settings |
//!
//! # What is proved, and what is tried
//!
//! Proved are the library's answers: what is accepted and refused, with number, place and year; sum, count and sizes; the record table; a
//! record asked for by number; the lengths of the head's texts, and whether their tails are clean; unit, corners, visibility; what an element's bits
//! stand for, and in which unit; the numbers of items; which character a byte of DOS, Windows or KOI-8 is; the bytes of a code index, its entries,
//! and what is selected by class code; the first record with a class code, and the frame, from header to header; the bytes written. This crate hands
//! them on. Its own, which tests hold and no proof, are the walk over the table that was unfolded, a record's place in that walk, the bits of a number
//! that is to be written, which record that is to be written needs the mark, the fields that [`Head`] reads out of its rest and its carried bytes,
//! which bytes a tail has, which coding a text is in, texts in UTF-16, whether a pick is a record of the sheet at hand, which code [`frame`] says
//! that it looked for, the room for writing, and the names of features.
//!
//! Nothing here panics on what a sheet, a table or an index holds. That an accepted sheet's table is well formed is the library's promise; what
//! goes against it would end an iteration early, and for good.
#![deny(missing_docs)]
#![forbid(unsafe_code)]

pub mod coordinates;
pub mod head;
pub mod hop;
pub mod index;
pub mod item;
pub mod new_item;
pub mod part;
pub mod pick;
pub mod record;
pub mod reference;
pub mod refusal;
pub mod setting;
pub mod sheet;
pub mod table;
pub mod tails;
pub mod text;
pub mod visibility;
pub mod writer;
pub mod years;

pub use coordinates::{Coordinate, Degrees, DevicePoints, ElementKind, Height, HeightUnit, Metres, Number, Radians, Unit};
pub use head::{Corners, Head};
pub use hop::{first_with, frame, Hit, Hop};
pub use index::{Entry, Index};
pub use item::{Item, Value};
pub use new_item::{NewItem, NoSuchItem};
pub use part::{Part, Point};
pub use pick::{select, OtherSheet, Pick, Picks};
pub use record::{Record, RecordAt};
pub use reference::{Localisation, Reference};
pub use refusal::Refusal;
pub use setting::Setting;
pub use sheet::{check, record_at, Sheet, Sizes};
pub use sxf_sys::{fields, row, LIMIT};
pub use table::{Row, Table, TableRef};
pub use tails::{tails, Tail, Tails};
pub use text::{Coding, NoCharacter, Stray, Text};
pub use visibility::Visibility;
pub use writer::{write, Misfit, NewPart, NewRecord, Writer};
