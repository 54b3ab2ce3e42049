//! What was met: each refusal of each call, and each reason for one.

use crate::blocks::{full, Fault, Stands, KINDS as BLOCK_KINDS, OLD_FULL};
use crate::features;
use crate::tails::{self, KINDS as TAIL_KINDS};
use second::BlockKind;
use std::collections::BTreeMap;
use sxf_sys::fields::{descriptor, header, passport};
use sxf_sys::refusals::*;
use sxf_sys::{codings, kinds, row, units, years};

/// The archive's calls.
#[derive(Clone, Copy, PartialEq, Eq, PartialOrd, Ord, Debug)]
pub enum Call {
    Check,
    Unfold,
    RecordAt,
    HeadOf,
    UnitOf,
    CornersOf,
    Write,
    ValueOf,
    VisibilityOf,
    CoordinateOf,
    ToUtf16,
    FromUtf16,
    IndexBuild,
    IndexCheck,
    IndexRead,
    IndexSelect,
    Select,
    FirstWith,
    FrameOf,
}

pub const CALLS: [Call; 19] = [
    Call::Check,
    Call::Unfold,
    Call::RecordAt,
    Call::HeadOf,
    Call::UnitOf,
    Call::CornersOf,
    Call::Write,
    Call::ValueOf,
    Call::VisibilityOf,
    Call::CoordinateOf,
    Call::ToUtf16,
    Call::FromUtf16,
    Call::IndexBuild,
    Call::IndexCheck,
    Call::IndexRead,
    Call::IndexSelect,
    Call::Select,
    Call::FirstWith,
    Call::FrameOf,
];

impl Call {
    /// The refusals that the call can give.
    pub fn refusals(self) -> &'static [u64] {
        match self {
            Call::Check | Call::RecordAt | Call::HeadOf | Call::UnitOf | Call::CornersOf => &OF_SHEETS,
            Call::Unfold | Call::IndexBuild | Call::Select => &OF_SHEETS_AND_ROOM,
            Call::Write => &[TOO_LONG, TEXT, RESERVED, TOO_NEW, NOT_CARRIED, COUNT, SEMANTIC, TABLE, ROOM, ASK],
            Call::ValueOf => &[SEMANTIC],
            Call::VisibilityOf => &[],
            Call::CoordinateOf => &[TABLE, ASK],
            Call::ToUtf16 | Call::FromUtf16 => &[ROOM, ASK, NO_CHARACTER],
            Call::IndexCheck => &[BAD_BLOCK],
            Call::IndexRead | Call::IndexSelect => &[ROOM, BAD_BLOCK],
            Call::FirstWith | Call::FrameOf => &[TOO_LONG, SHORT, NOT_SXF, LENGTH],
        }
    }
}

#[rustfmt::skip]
const OF_SHEETS: [u64; 14] = [
    TOO_LONG, SHORT, NOT_SXF, EDITION, SUM, TEXT, RESERVED, TOO_NEW, NOT_CARRIED, LENGTH, COUNT, SEMANTIC, LEFT_OVER, ASK,
];

#[rustfmt::skip]
const OF_SHEETS_AND_ROOM: [u64; 15] = [
    TOO_LONG, SHORT, NOT_SXF, EDITION, SUM, TEXT, RESERVED, TOO_NEW, NOT_CARRIED, LENGTH, COUNT, SEMANTIC, LEFT_OVER, ROOM, ASK,
];

/// The refusals' numbers, and 0 for an answer that is none.
pub const NUMBERS: usize = BAD_BLOCK as usize + 1;

/// Where a refusal stands.
#[derive(Clone, Copy, PartialEq, Eq, PartialOrd, Ord, Debug)]
pub enum Where {
    /// At this place before the records, or in what is written there.
    Head(usize),
    /// At this byte of a record's header.
    Header(usize),
    /// Within the metric of a record, with the mark or without.
    Metric { marked: bool },
    /// Where a record's metric ends.
    MetricEnd,
    /// Within a record's semantics.
    Semantics,
    /// After the last record.
    After,
    /// At this column of a record's row.
    Row(usize),
    /// At the points of a first part, under the mark or not.
    FirstPoints { marked: bool },
    /// At the points of a later part, under the mark or not.
    LaterPoints { marked: bool },
    /// At a text length.
    TextLength,
    /// At this column of an item.
    Item(usize),
    /// At the table's length.
    TableEnd,
    /// At the first byte or unit of a text.
    FirstCharacter,
    /// At one between the first and the last.
    InnerCharacter,
    /// At the last, which is not the first.
    LastCharacter,
    /// At a block of a code index of this kind, or of neither, that stands there
    /// and has this fault alone.
    Block(Option<BlockKind>, Stands, Fault),
    /// At a lent slice.
    Lent(u64),
    /// At the question itself.
    Asked,
}

/// Whether a sheet was read or a table written, the meaning of an element or of
/// an item was asked for, a text was turned to UTF-16 or back, a code index was
/// read, or a sheet was hopped over.
#[derive(Clone, Copy, PartialEq, Eq, PartialOrd, Ord, Debug)]
pub enum Way {
    Read,
    Write,
    Mean,
    There,
    Back,
    Index,
    Hop,
}

/// Why something was refused, as far as number, place and year tell.
#[derive(Clone, Copy, PartialEq, Eq, PartialOrd, Ord, Debug)]
pub struct Reason {
    pub way: Way,
    pub number: u64,
    pub at: Where,
    pub year: u64,
}

/// In how many cases each was met. A case counts once however often its
/// calls gave the same.
#[derive(Clone)]
pub struct Tally {
    pub answers: [[u64; NUMBERS]; CALLS.len()],
    pub reasons: BTreeMap<Reason, u64>,
    /// The features of what was accepted.
    pub features: [u64; features::COUNT],
    /// What stood in the tails of accepted sheets, by text field.
    pub tails: [[u64; TAIL_KINDS.len()]; tails::COUNT],
    /// The accepted sheets by which of their text fields were dirty.
    pub dirty: [u64; 1 << tails::COUNT],
    /// The units that were answered, 1 to 5.
    pub units: [u64; 6],
    /// By the first corner that was a NaN, counted from 1; at 0 there was none.
    pub nans: [u64; 9],
    /// The kinds of numbers that elements were, by dimension.
    pub elements: [[u64; KINDS]; 3],
    /// The units that elements were in, by dimension.
    pub element_units: [[u64; 6]; 3],
    /// The kinds of numbers that items were.
    pub items: [u64; KINDS],
    /// The codings of texts that were turned to UTF-16.
    pub there: [u64; CODINGS],
    /// The codings of texts that were turned back.
    pub back: [u64; CODINGS],
    /// The sheets that were accepted whose sum took no more than 32 bits, or more.
    pub sums: [u64; 2],
    /// The code indexes that were accepted, by their kind and by the entries of
    /// their last block; at 0 of the new kind there was no block.
    pub last_counts: [[u64; OLD_FULL + 1]; BLOCK_KINDS.len()],
    /// The selections by an index and from a sheet that had no hit, one, more.
    pub hits: [[u64; 3]; 2],
    /// The localisations of records that were selected from sheets.
    pub localisations: [u64; 6],
    /// The indexes that were built whose last place took two bytes, three or four.
    pub places: [u64; 3],
    /// Where hops ended that were not refused: by code, and to the frame.
    pub ends: [[u64; ENDS.len()]; 2],
}

/// Where a hop ended among the records that the descriptor counts.
#[derive(Clone, Copy, PartialEq, Eq, Debug)]
pub enum End {
    /// None is counted.
    NoRecord,
    /// None is a hit.
    NoHit,
    FirstRecord,
    InnerRecord,
    /// The last, which is not the first.
    LastRecord,
}

pub const ENDS: [End; 5] = [End::NoRecord, End::NoHit, End::FirstRecord, End::InnerRecord, End::LastRecord];

/// How often what takes a large sheet must be met: there are few, since each
/// takes the time of thousands of others.
const LEAST_OF_LARGE: u64 = 5;

/// Which of the two hops it was.
pub const BY_CODE: usize = 0;
pub const TO_FRAME: usize = 1;

/// Which of the two ways a selection was made.
pub const BY_INDEX: usize = 0;
pub const FROM_SHEET: usize = 1;

/// The kinds of numbers.
pub const KINDS: usize = kinds::DECIMAL as usize + 1;

/// The codings.
pub const CODINGS: usize = codings::KOI8 as usize + 1;

/// What the elements of the plane can be, and in which units they can be.
const IN_THE_PLANE: ([u64; 4], [u64; 5]) = (
    [kinds::WHOLE, kinds::SINGLE, kinds::DOUBLE, kinds::NAN],
    [units::DEVICE_POINTS, units::METRES, units::RADIANS, units::DEGREES, units::UNKNOWN_UNIT],
);

/// What heights can be, and in which units.
const IN_HEIGHT: ([u64; 3], [u64; 2]) = ([kinds::SINGLE, kinds::DOUBLE, kinds::NAN], [units::METRES, units::UNKNOWN_UNIT]);

/// What items can be.
const IN_ITEMS: [u64; 4] = [kinds::NO_NUMBER, kinds::DOUBLE, kinds::NAN, kinds::DECIMAL];

/// What texts can be in.
const IN_TEXTS: [u64; CODINGS] = [codings::DOS as u64, codings::WINDOWS as u64, codings::KOI8 as u64];

impl Default for Tally {
    fn default() -> Tally {
        Tally {
            answers: Default::default(),
            reasons: BTreeMap::new(),
            features: [0; features::COUNT],
            tails: Default::default(),
            dirty: Default::default(),
            units: [0; 6],
            nans: [0; 9],
            elements: Default::default(),
            element_units: Default::default(),
            items: Default::default(),
            there: Default::default(),
            back: Default::default(),
            sums: Default::default(),
            last_counts: [[0; OLD_FULL + 1]; BLOCK_KINDS.len()],
            hits: Default::default(),
            localisations: Default::default(),
            places: Default::default(),
            ends: Default::default(),
        }
    }
}

fn add(sums: &mut [u64], more: &[u64]) {
    for (sum, more) in sums.iter_mut().zip(more) {
        *sum += more;
    }
}

impl Tally {
    /// Adds what one case, or another run of cases, met.
    pub fn add(&mut self, other: &Tally) {
        for (sums, more) in self.answers.iter_mut().zip(&other.answers) {
            add(sums, more);
        }
        add(&mut self.features, &other.features);
        add(self.tails.as_flattened_mut(), other.tails.as_flattened());
        add(&mut self.dirty, &other.dirty);
        add(&mut self.units, &other.units);
        add(&mut self.nans, &other.nans);
        add(self.elements.as_flattened_mut(), other.elements.as_flattened());
        add(self.element_units.as_flattened_mut(), other.element_units.as_flattened());
        add(&mut self.items, &other.items);
        add(&mut self.there, &other.there);
        add(&mut self.back, &other.back);
        add(&mut self.sums, &other.sums);
        add(self.last_counts.as_flattened_mut(), other.last_counts.as_flattened());
        add(self.hits.as_flattened_mut(), other.hits.as_flattened());
        add(&mut self.localisations, &other.localisations);
        add(&mut self.places, &other.places);
        add(self.ends.as_flattened_mut(), other.ends.as_flattened());
        for (reason, more) in &other.reasons {
            *self.reasons.entry(*reason).or_default() += more;
        }
    }

    /// Whatever was met less often than `least` times, or than
    /// [`LEAST_OF_LARGE`] where it takes a large sheet.
    pub fn missing(&self, least: u64) -> Vec<String> {
        let mut missing = Vec::new();
        for call in CALLS {
            for &number in call.refusals() {
                let met = self.answers[call as usize][number as usize];
                let writes_too_long = call == Call::Write && number == TOO_LONG;
                if met < if writes_too_long { LEAST_OF_LARGE } else { least } {
                    missing.push(format!("{call:?} gave refusal {number} in {met} cases"));
                }
            }
        }
        for reason in due() {
            let met = self.reasons.get(&reason).copied().unwrap_or(0);
            let writes_too_long = reason.way == Way::Write && reason.number == TOO_LONG;
            if met < if writes_too_long { LEAST_OF_LARGE } else { least } {
                missing.push(format!("{reason:?} was met in {met} cases"));
            }
        }
        for (feature, &met) in self.features.iter().enumerate() {
            if met < least {
                let name = features::name(feature);
                missing.push(format!("{name} was accepted in {met} cases"));
            }
        }
        for (unit, &met) in self.units.iter().enumerate().skip(1) {
            if met < least {
                missing.push(format!("unit {unit} was answered in {met} cases"));
            }
        }
        for (corner, &met) in self.nans.iter().enumerate() {
            if met < least {
                missing.push(format!("NaN {corner} was answered in {met} cases"));
            }
        }
        missing.extend(self.missing_tails(least));
        missing.extend(self.missing_meanings(least));
        missing.extend(seldom(&self.there, &IN_TEXTS, least, "a text there from coding"));
        missing.extend(seldom(&self.back, &IN_TEXTS, least, "a text back to coding"));
        missing.extend(self.missing_indexes(least));
        missing.extend(self.missing_hops(least));
        missing
    }

    /// Whatever stood in tails less often than `least` times, and whichever
    /// fields were dirty together so seldom.
    fn missing_tails(&self, least: u64) -> Vec<String> {
        let mut missing = Vec::new();
        for (field, met) in tails::FIELDS.into_iter().zip(self.tails) {
            for (kind, met) in TAIL_KINDS.into_iter().zip(met).filter(|&(_, met)| met < least) {
                missing.push(format!("a tail of the field at {} was {kind:?} in {met} cases", field.place));
            }
        }
        for (dirty, met) in self.dirty.into_iter().enumerate().filter(|&(_, met)| met < least) {
            missing.push(format!("the text fields {dirty:#06b} were dirty in {met} cases"));
        }
        missing
    }

    /// Wherever hops ended less often than `least` times.
    fn missing_hops(&self, least: u64) -> Vec<String> {
        let mut missing = Vec::new();
        for (hop, name) in [(BY_CODE, "by code"), (TO_FRAME, "to the frame")] {
            for (end, met) in ENDS.into_iter().zip(self.ends[hop]).filter(|&(_, met)| met < least) {
                missing.push(format!("a hop {name} ended at {end:?} in {met} cases"));
            }
        }
        missing
    }

    /// Whatever code indexes and selections were less often than `least` times.
    fn missing_indexes(&self, least: u64) -> Vec<String> {
        let [by_index, from_sheet] = &self.hits;
        let [_, past] = self.sums;
        let [two_bytes, three_bytes, four_bytes] = self.places;
        let mut missing = Vec::new();
        for (met, name) in [
            (&by_index[..], "a selection by an index of hits:"),
            (from_sheet, "a selection from a sheet of hits:"),
            (&self.localisations, "a selected localisation"),
            (&[two_bytes, three_bytes], "an index whose last place has so many bytes more than two:"),
        ] {
            let all: Vec<u64> = (0..met.len() as u64).collect();
            missing.extend(seldom(met, &all, least, name));
        }
        for (met, name) in [(past, "a sum past 32 bits"), (four_bytes, "a last place of four bytes")] {
            missing.extend(seldom(&[met], &[0], LEAST_OF_LARGE, name));
        }
        for (kind, met) in BLOCK_KINDS.into_iter().zip(&self.last_counts) {
            let first = u64::from(kind == BlockKind::Old);
            let counts: Vec<u64> = (first..=full(kind) as u64).collect();
            missing.extend(seldom(met, &counts, least, &format!("an index, {kind:?}, whose last block has entries:")));
        }
        missing
    }

    /// Whatever elements and items were less often than `least` times.
    fn missing_meanings(&self, least: u64) -> Vec<String> {
        let mut missing = Vec::new();
        let ((planar, plane_units), (high, height_units)) = (IN_THE_PLANE, IN_HEIGHT);
        for (dimension, (kinds, units)) in
            [(&planar[..], &plane_units[..]), (&planar, &plane_units), (&high, &height_units)].iter().enumerate()
        {
            let name = format!("element {dimension} of a point");
            missing.extend(seldom(&self.elements[dimension], kinds, least, &format!("{name} of kind")));
            missing.extend(seldom(&self.element_units[dimension], units, least, &format!("{name} in unit")));
        }
        missing.extend(seldom(&self.items, &IN_ITEMS, least, "an item of kind"));
        missing
    }
}

/// Which of these numbers were met less often than `least` times.
fn seldom<'a>(met: &'a [u64], due: &'a [u64], least: u64, name: &'a str) -> impl Iterator<Item = String> + 'a {
    let met = move |&number: &u64| (number, met[number as usize]);
    due.iter()
        .map(met)
        .filter(move |&(_, met)| met < least)
        .map(move |(number, met)| format!("{name} {number} was met in {met} cases"))
}

/// A refusal, the year of its feature or 0, and places where it stands.
type Stated<'a> = (u64, u32, &'a [Where]);

fn reasons(way: Way, stated: &[Stated]) -> Vec<Reason> {
    let each = |&(number, year, places): &Stated| {
        let reason = move |&at: &Where| Reason { way, number, at, year: u64::from(year) };
        places.iter().map(reason).collect::<Vec<_>>()
    };
    stated.iter().flat_map(each).collect()
}

/// The reasons that the documents name, told apart by their places.
pub fn due() -> Vec<Reason> {
    let mut due = reasons(Way::Read, &OF_HEADS);
    due.extend(reasons(Way::Write, &OF_HEADS));
    due.extend(reasons(Way::Read, &OF_READING));
    due.extend(reasons(Way::Write, &OF_WRITING));
    due.extend(reasons(Way::Mean, &OF_MEANINGS));
    due.extend(reasons(Way::There, &OF_TEXTS));
    due.extend(reasons(Way::Back, &OF_TEXTS));
    due.extend(of_indexes());
    due.extend(reasons(Way::Hop, &OF_HOPS));
    due
}

/// What is refused of blocks: in a file of each kind, and of a first one that
/// tells none.
fn of_indexes() -> Vec<Reason> {
    let reason = |kind, stands, fault| Reason { way: Way::Index, number: BAD_BLOCK, at: Block(kind, stands, fault), year: 0 };
    let mut due: Vec<Reason> = OF_NO_KIND.into_iter().map(|(stands, fault)| reason(None, stands, fault)).collect();
    for kind in BLOCK_KINDS {
        for (stands, faults) in OF_BLOCKS {
            due.extend(faults.iter().map(|&fault| reason(Some(kind), stands, fault)));
        }
    }
    due
}

use Fault::{Ending, Length, NoEntries, NotFull, Number, OtherKind, OverFull, Sum, Unused};
use Stands::{Alone, First, Inner, Last};
use Where::{
    After, Asked, Block, FirstCharacter, Head, Header, InnerCharacter, Item, LastCharacter, Lent, MetricEnd, Row, Semantics,
    TableEnd, TextLength,
};

/// The places that a record may have with the mark or without it.
const METRIC: Where = Where::Metric { marked: false };
const MARKED_METRIC: Where = Where::Metric { marked: true };
const FIRST_POINTS: Where = Where::FirstPoints { marked: false };
const MARKED_FIRST_POINTS: Where = Where::FirstPoints { marked: true };
const LATER_POINTS: Where = Where::LaterPoints { marked: false };
const MARKED_LATER_POINTS: Where = Where::LaterPoints { marked: true };

/// The texts, and what is carried: reader and writer refuse at the same places,
/// though a text for other reasons.
const OF_HEADS: [Stated; 6] = [
    (
        TEXT,
        0,
        &[
            Head(passport::DATE.place),
            Head(passport::DESIGNATION.place),
            Head(passport::TITLE.place),
            Head(descriptor::DESIGNATION.place),
        ],
    ),
    (
        RESERVED,
        0,
        &[
            Head(passport::FLAGS.place),
            Head(passport::LABELS.place),
            Head(passport::ACCURACY.place),
            Head(passport::SORTING.place),
            Head(descriptor::FLAGS.place),
            Head(descriptor::LABELS.place),
            Head(descriptor::SECRECY.place),
            Head(descriptor::KEEPING.place),
        ],
    ),
    (TOO_NEW, years::NORTH_OFFSET, &[Head(passport::NORTH.place), Head(passport::EAST.place)]),
    (TOO_NEW, years::ACCURACY_SET, &[Head(passport::ACCURACY.place)]),
    (TOO_NEW, years::SPECIAL_SORTING, &[Head(passport::SORTING.place)]),
    (TOO_NEW, years::EPSG_SET, &[Head(passport::EPSG.place), Head(descriptor::KEEPING.place)]),
];

/// The rest that the reader refuses.
const OF_READING: [Stated; 22] = [
    (TOO_LONG, 0, &[Head(0)]),
    (SHORT, 0, &[Head(0), Header(0), Header(header::TOTAL.place)]),
    (NOT_SXF, 0, &[Head(passport::IDENTIFIER.place), Head(descriptor::IDENTIFIER.place), Header(header::IDENTIFIER.place)]),
    (EDITION, 0, &[Head(passport::OWN_LENGTH.place), Head(passport::EDITION.place), Head(descriptor::OWN_LENGTH.place)]),
    (SUM, 0, &[Head(passport::SUM.place)]),
    (TEXT, 0, &[METRIC, MARKED_METRIC, Semantics]),
    (RESERVED, 0, &[Head(descriptor::RESERVED.place), Header(header::BYTE20.place), Header(header::BYTE22.place)]),
    (TOO_NEW, years::MULTIPOLYGON, &[Header(header::BYTE20.place)]),
    (TOO_NEW, years::UNICODE, &[Header(header::BYTE21.place)]),
    (TOO_NEW, years::ABOVE_ALL, &[Header(header::BYTE21.place)]),
    (TOO_NEW, years::COMPRESSED_GRAPHICS, &[Header(header::BYTE21.place)]),
    (TOO_NEW, years::VERTICAL_ALIGNMENT, &[Header(header::BYTE21.place)]),
    (TOO_NEW, years::SPLINE_BITS, &[Header(header::BYTE22.place)]),
    (TOO_NEW, years::MARK_65535, &[Header(header::POINTS.place)]),
    (TOO_NEW, years::TYPE_128, &[Semantics]),
    (NOT_CARRIED, 0, &[Header(header::BYTE21.place), Header(header::BYTE22.place)]),
    (LENGTH, 0, &[Header(header::TOTAL.place), Header(header::METRIC.place), METRIC, MARKED_METRIC, MetricEnd, Semantics]),
    (COUNT, 0, &[METRIC]),
    (SEMANTIC, 0, &[Semantics]),
    (LEFT_OVER, 0, &[After]),
    (ROOM, 0, &[Lent(1), Lent(2), Lent(3)]),
    (ASK, 0, &[Asked]),
];

/// What is refused of an element, and of an item.
const OF_MEANINGS: [Stated; 3] =
    [(TABLE, 0, &[Row(row::REFERENCE), Asked]), (ASK, 0, &[Asked]), (SEMANTIC, 0, &[Item(row::ITEM_TYPE), Item(row::ITEM_SCALE)])];

/// What is refused of a text, there and back.
const OF_TEXTS: [Stated; 3] =
    [(NO_CHARACTER, 0, &[FirstCharacter, InnerCharacter, LastCharacter]), (ROOM, 0, &[Asked]), (ASK, 0, &[Asked])];

/// What is refused of a block in a file of a kind. A piece is the last, and what
/// is not the last has no unused entry.
const OF_BLOCKS: [(Stands, &[Fault]); 4] = [
    (Alone, &[Number, NoEntries, OverFull, Unused, Sum]),
    (First, &[Number, NoEntries, NotFull, OverFull, Sum]),
    (Inner, &[Number, NoEntries, NotFull, OverFull, Ending, OtherKind, Sum]),
    (Last, &[Length, Number, NoEntries, OverFull, Unused, Ending, OtherKind, Sum]),
];

/// What is refused of a first block that does not tell the kind of the file.
const OF_NO_KIND: [(Stands, Fault); 3] = [(Alone, Length), (Alone, Ending), (First, Ending)];

/// What is refused of a sheet that is hopped over.
const OF_HOPS: [Stated; 4] = [
    (TOO_LONG, 0, &[Head(0)]),
    (SHORT, 0, &[Head(0), Header(0), Header(header::TOTAL.place)]),
    (NOT_SXF, 0, &[Head(passport::IDENTIFIER.place), Head(descriptor::IDENTIFIER.place), Header(header::IDENTIFIER.place)]),
    (LENGTH, 0, &[Header(header::TOTAL.place)]),
];

/// The rest that the writer refuses.
const OF_WRITING: [Stated; 20] = [
    (TOO_LONG, 0, &[Asked]),
    (TEXT, 0, &[Item(row::ITEM_LENGTH)]),
    (RESERVED, 0, &[Row(row::REFERENCE)]),
    (TOO_NEW, years::SPLINE_BITS, &[Row(row::REFERENCE)]),
    (TOO_NEW, years::UNICODE, &[Row(row::REFERENCE)]),
    (TOO_NEW, years::ABOVE_ALL, &[Row(row::REFERENCE)]),
    (TOO_NEW, years::COMPRESSED_GRAPHICS, &[Row(row::REFERENCE)]),
    (TOO_NEW, years::MULTIPOLYGON, &[Row(row::REFERENCE)]),
    (TOO_NEW, years::VERTICAL_ALIGNMENT, &[Row(row::REFERENCE)]),
    (TOO_NEW, years::MARK_65535, &[Row(row::MARK)]),
    (TOO_NEW, years::TYPE_128, &[Item(row::ITEM_TYPE)]),
    (NOT_CARRIED, 0, &[Row(row::REFERENCE)]),
    (COUNT, 0, &[FIRST_POINTS, MARKED_FIRST_POINTS, LATER_POINTS]),
    (SEMANTIC, 0, &[Item(row::ITEM_TYPE), Item(row::ITEM_SCALE), Item(row::ITEM_LENGTH)]),
    (
        TABLE,
        0,
        &[
            Row(row::CODE),
            Row(row::IN_GROUP),
            Row(row::GROUP),
            Row(row::REFERENCE),
            Row(row::GENERALISATION),
            Row(row::WORD),
            Row(row::PARTS),
            Row(row::ITEMS),
            Row(row::MARK),
        ],
    ),
    (TABLE, 0, &[FIRST_POINTS, MARKED_FIRST_POINTS, LATER_POINTS, MARKED_LATER_POINTS, TextLength]),
    (TABLE, 0, &[Item(row::ITEM_CODE), Item(row::ITEM_TYPE), Item(row::ITEM_SCALE), Item(row::ITEM_LENGTH)]),
    (TABLE, 0, &[TableEnd]),
    (ROOM, 0, &[Asked]),
    (ASK, 0, &[Asked]),
];
