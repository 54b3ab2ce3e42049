//! What accepted sheets and tables have in them, so that no feature of the
//! documents goes without being accepted.

use crate::tables::{has_text, rows, Row, SPLINE_BIT_6, SPLINE_BIT_7};
use second::{Head, Table};
use sxf_sys::fields::{descriptor, passport, Field};
use sxf_sys::reference as bits;
use sxf_sys::row::{self, POINTS};
use sxf_sys::MARK;

/// What is in the records of a table.
struct Facts<'a> {
    head: &'a Head,
    records: u64,
    /// A bit for each localisation.
    localisations: u64,
    /// A bit for each shape of points, which the bits of element size,
    /// floating and three dimensions number from 0 to 7.
    shapes: u64,
    /// All bits that some reference has.
    bits: u64,
    /// The types of items.
    types: [bool; 256],
    /// Bit 0 for one part, bit 1 for several, bit 2 for as many as can be.
    parts: u64,
    /// A record has the mark.
    marked: bool,
    /// A record does not have it.
    unmarked: bool,
    /// Under the mark a first part has fewer points than need it.
    small_marked: bool,
    /// Under the mark a first part has no points.
    empty_marked: bool,
    /// A first part has as many points as need the mark.
    long_shore: bool,
    /// A later part has more points than two bytes count.
    far: bool,
    /// Such a part stands behind a first one of fewer points than need the mark.
    long_island: bool,
    /// Without the mark a later part has as many points as two bytes count.
    largest_unmarked: bool,
    /// A part has no points.
    pointless: bool,
    /// The lengths of texts.
    texts: [bool; 256],
}

type Feature = (&'static str, fn(&Facts) -> bool);

/// The features, and how each is known.
const FEATURES: [Feature; 72] = [
    ("no record", |facts| facts.records == 0),
    ("one record", |facts| facts.records == 1),
    ("several records", |facts| facts.records > 1),
    ("localisation 0", |facts| facts.localisations & 1 != 0),
    ("localisation 1", |facts| facts.localisations & 2 != 0),
    ("localisation 2", |facts| facts.localisations & 4 != 0),
    ("localisation 3", |facts| facts.localisations & 8 != 0),
    ("localisation 4", |facts| facts.localisations & 16 != 0),
    ("localisation 5", |facts| facts.localisations & 32 != 0),
    ("4 bytes a point", |facts| facts.shapes & 1 != 0),
    ("8 bytes, large", |facts| facts.shapes & 2 != 0),
    ("8 bytes, floating", |facts| facts.shapes & 4 != 0),
    ("16 bytes", |facts| facts.shapes & 8 != 0),
    ("8 bytes with height", |facts| facts.shapes & 16 != 0),
    ("12 bytes, large", |facts| facts.shapes & 32 != 0),
    ("12 bytes, floating", |facts| facts.shapes & 64 != 0),
    ("24 bytes", |facts| facts.shapes & 128 != 0),
    ("multipolygon", |facts| facts.bits & bits::MULTIPOLYGON != 0),
    ("compressed graphics", |facts| facts.bits & bits::COMPRESSED_GRAPHICS != 0),
    ("semantics", |facts| facts.bits & bits::SEMANTICS != 0),
    ("Unicode", |facts| facts.bits & bits::UNICODE != 0),
    ("above all", |facts| facts.bits & bits::ABOVE_ALL != 0),
    ("below all", |facts| facts.bits & bits::BELOW_ALL != 0),
    ("vertical alignment", |facts| facts.bits & bits::VERTICAL_ALIGNMENT != 0),
    ("text", |facts| facts.bits & bits::TEXT_IN_METRIC != 0),
    ("scalable", |facts| facts.bits & bits::SCALABLE != 0),
    ("spline, bit 6", |facts| facts.bits & SPLINE_BIT_6 != 0),
    ("spline, bit 7", |facts| facts.bits & SPLINE_BIT_7 != 0),
    ("empty text", |facts| facts.texts[0]),
    ("text of 255", |facts| facts.texts[255]),
    ("type 0", |facts| facts.types[0]),
    ("type 1", |facts| facts.types[1]),
    ("type 2", |facts| facts.types[2]),
    ("type 4", |facts| facts.types[4]),
    ("type 8", |facts| facts.types[8]),
    ("type 126", |facts| facts.types[126]),
    ("type 127", |facts| facts.types[127]),
    ("type 128", |facts| facts.types[128]),
    ("one part", |facts| facts.parts & 1 != 0),
    ("several parts", |facts| facts.parts & 2 != 0),
    ("65536 parts", |facts| facts.parts & 4 != 0),
    ("no points", |facts| facts.pointless),
    ("the mark", |facts| facts.marked),
    ("marked and unmarked records", |facts| facts.marked && facts.unmarked),
    ("small count under the mark", |facts| facts.small_marked),
    ("no points under the mark", |facts| facts.empty_marked),
    ("first part over 65534", |facts| facts.long_shore),
    ("later part over 65535", |facts| facts.far),
    ("short shore, long island", |facts| facts.long_island),
    ("later 65535 without the mark", |facts| facts.largest_unmarked),
    ("real", |facts| facts.rest(passport::FLAGS) & 0x18 != 0),
    ("table 5", |facts| facts.rest(passport::FLAGS) & 0x80 != 0),
    ("label coding 0", |facts| facts.rest(passport::LABELS) == 0),
    ("label coding 2", |facts| facts.rest(passport::LABELS) == 2),
    ("accuracy 1", |facts| facts.rest(passport::ACCURACY) == 1),
    ("accuracy 3", |facts| facts.rest(passport::ACCURACY) == 3),
    ("special sorting", |facts| facts.rest(passport::SORTING) == 1),
    ("EPSG", |facts| facts.rest(passport::EPSG) != 0),
    ("north offset", |facts| facts.rest(passport::NORTH) != 0),
    ("east offset", |facts| facts.rest(passport::EAST) != 0),
    ("state, bit 2", |facts| facts.carried(descriptor::FLAGS) & 0x04 != 0),
    ("state, bits 3-4", |facts| facts.carried(descriptor::FLAGS) & 0x18 != 0),
    ("state, bit 7", |facts| facts.carried(descriptor::FLAGS) & 0x80 != 0),
    ("secrecy 0", |facts| facts.carried(descriptor::SECRECY) == 0),
    ("secrecy 5", |facts| facts.carried(descriptor::SECRECY) == 5),
    ("automatic GUID", |facts| facts.carried(descriptor::KEEPING) & 1 != 0),
    ("edit date", |facts| facts.carried(descriptor::KEEPING) & 2 != 0),
    ("no date", |facts| facts.head.date.is_empty()),
    ("date of 11", |facts| facts.head.date.len() == 11),
    ("designation of 31", |facts| facts.head.designation.len() == 31),
    ("title of 31", |facts| facts.head.title.len() == 31),
    ("second designation of 31", |facts| facts.head.designation2.len() == 31),
];

/// How many features there are.
pub const COUNT: usize = FEATURES.len();

pub fn name(feature: usize) -> &'static str {
    FEATURES[feature].0
}

/// A bit for each feature of an accepted head and table.
pub fn of(head: &Head, table: &Table) -> u128 {
    let facts = facts(head, table);
    FEATURES.iter().enumerate().filter(|(_, (_, has))| has(&facts)).fold(0, |all, (feature, _)| all | 1 << feature)
}

fn facts<'a>(head: &'a Head, table: &Table) -> Facts<'a> {
    let mut facts = Facts {
        head,
        records: 0,
        localisations: 0,
        shapes: 0,
        bits: 0,
        types: [false; 256],
        parts: 0,
        marked: false,
        unmarked: false,
        small_marked: false,
        empty_marked: false,
        long_shore: false,
        far: false,
        long_island: false,
        largest_unmarked: false,
        pointless: false,
        texts: [false; 256],
    };
    rows(table).for_each(|row| facts.record(&row));
    facts
}

impl Facts<'_> {
    /// The number that stands in a field of the rest.
    fn rest(&self, field: Field) -> u64 {
        number(&self.head.rest[passport::in_rest(field).range()])
    }

    /// The number that stands in a field of the carried bytes.
    fn carried(&self, field: Field) -> u64 {
        number(&self.head.carried[descriptor::in_carried(field).range()])
    }

    fn record(&mut self, row: &Row) {
        let reference = row.record.reference;
        self.records += 1;
        self.localisations |= 1 << (reference & bits::LOCALISATION);
        self.bits |= reference;
        self.parts |= match row.record.parts {
            1 => 1,
            65536 => 6,
            _ => 2,
        };
        self.counts(row);
        let has = |bit: u64| u64::from(reference & bit != 0);
        let shape = has(bits::ELEMENT_SIZE) | has(bits::FLOATING) << 1 | has(bits::THREE_DIMENSIONS) << 2;
        for part in row.parts {
            let part = row::Part::of(part);
            self.pointless |= part.points == 0;
            if part.points != 0 {
                self.shapes |= 1 << shape;
            }
            if has_text(reference) {
                self.texts[part.text_length as usize] = true;
            }
        }
        for item in row.items {
            self.types[row::Item::of(item).kind as usize] = true;
        }
    }

    /// What the counts of points are about the mark.
    fn counts(&mut self, row: &Row) {
        let marked = row.record.mark == 1;
        let first = row.parts[0][POINTS];
        let largest_later = row.parts[1..].iter().map(|part| part[POINTS]).max().unwrap_or(0);
        self.marked |= marked;
        self.unmarked |= !marked;
        self.small_marked |= marked && first < MARK;
        self.empty_marked |= marked && first == 0;
        self.long_shore |= first >= MARK;
        self.far |= largest_later > MARK;
        self.long_island |= largest_later > MARK && first < MARK;
        self.largest_unmarked |= largest_later == MARK && !marked;
    }
}

/// The number of at most eight bytes, the lowest first.
fn number(bytes: &[u8]) -> u64 {
    bytes.iter().rev().fold(0, |number, &byte| number << 8 | u64::from(byte))
}
