//! Where the fields of a sheet lie that was written from a table.

use crate::tables::{closing_zeros, has_text, rows, widths, Row};
use second::Table;
use sxf_sys::fields::{descriptor, header, item, passport, subobject, Field, START};
use sxf_sys::row::{self, POINTS};

/// What stands in a field.
#[derive(Clone, Copy, PartialEq, Eq, Debug)]
pub enum Kind {
    Identifier,
    FixedLength,
    Edition,
    Sum,
    Text,
    Scale,
    Flags,
    Epsg,
    Corner,
    Offset,
    /// A part of the rest that tells nothing, or only the unit.
    Rest,
    RecordCount,
    Reserved,
    Total,
    Metric,
    /// A number of the record's row that may be any number.
    Row,
    Reference,
    Word,
    Subobjects,
    Points,
    PartHead,
    Elements,
    PartTextLength,
    PartText,
    PartTextEnd,
    ItemCode,
    ItemType,
    ItemScale,
    LongLength,
    Value,
    ValueEnd,
}

/// A field of a sheet.
#[derive(Clone, Copy, Debug)]
pub struct Spot {
    pub kind: Kind,
    pub field: Field,
}

/// Where a record starts, where its metric ends, and where it ends; and how
/// many points its first part has.
#[derive(Clone, Copy, Debug)]
pub struct Bounds {
    pub at: usize,
    pub metric_end: usize,
    pub end: usize,
    pub points: u32,
}

/// All fields of a sheet, in order, and the bounds of its records.
pub struct Places {
    pub spots: Vec<Spot>,
    pub records: Vec<Bounds>,
}

/// The bytes between two fields.
const fn between(before: Field, after: Field) -> Field {
    Field::new(before.after(), after.place - before.after())
}

const HEAD: [(Kind, Field); 31] = [
    (Kind::Identifier, passport::IDENTIFIER),
    (Kind::FixedLength, passport::OWN_LENGTH),
    (Kind::Edition, passport::EDITION),
    (Kind::Sum, passport::SUM),
    (Kind::Text, passport::DATE),
    (Kind::Text, passport::DESIGNATION),
    (Kind::Scale, passport::SCALE),
    (Kind::Text, passport::TITLE),
    (Kind::Flags, passport::FLAGS),
    (Kind::Flags, passport::LABELS),
    (Kind::Flags, passport::ACCURACY),
    (Kind::Flags, passport::SORTING),
    (Kind::Epsg, passport::EPSG),
    (Kind::Corner, passport::CORNERS),
    (Kind::Rest, between(passport::CORNERS, passport::UNIT)),
    (Kind::Rest, passport::UNIT),
    (Kind::Rest, between(passport::UNIT, passport::RESOLUTION)),
    (Kind::Rest, passport::RESOLUTION),
    (Kind::Rest, between(passport::RESOLUTION, passport::NORTH)),
    (Kind::Offset, passport::NORTH),
    (Kind::Offset, passport::EAST),
    (Kind::Identifier, descriptor::IDENTIFIER),
    (Kind::FixedLength, descriptor::OWN_LENGTH),
    (Kind::Text, descriptor::DESIGNATION),
    (Kind::RecordCount, descriptor::COUNT),
    (Kind::Flags, descriptor::FLAGS),
    (Kind::Flags, descriptor::LABELS),
    (Kind::Flags, descriptor::SECRECY),
    (Kind::Flags, descriptor::KEEPING),
    (Kind::Reserved, Field::new(descriptor::RESERVED.place, 2)),
    (Kind::Reserved, Field::new(descriptor::RESERVED.place + 2, 2)),
];

const HEADER: [(Kind, Field); 13] = [
    (Kind::Identifier, header::IDENTIFIER),
    (Kind::Total, header::TOTAL),
    (Kind::Metric, header::METRIC),
    (Kind::Row, header::CODE),
    (Kind::Row, header::IN_GROUP),
    (Kind::Row, header::GROUP),
    (Kind::Reference, header::BYTE20),
    (Kind::Reference, header::BYTE21),
    (Kind::Reference, header::BYTE22),
    (Kind::Row, header::GENERALISATION),
    (Kind::Word, header::WORD),
    (Kind::Subobjects, header::SUBOBJECTS),
    (Kind::Points, header::POINTS),
];

/// The places of the sheet that is written from a table without refusal.
pub fn places(table: &Table) -> Places {
    let mut spots = HEAD.map(|(kind, field)| Spot { kind, field }).to_vec();
    let mut walk = Walk { spots: &mut spots, at: START };
    let records = rows(table).map(|row| walk.record(&row)).collect();
    Places { spots, records }
}

struct Walk<'a> {
    spots: &'a mut Vec<Spot>,
    at: usize,
}

impl Walk<'_> {
    fn record(&mut self, row: &Row) -> Bounds {
        let at = self.at;
        self.spots.extend(HEADER.map(|(kind, field)| Spot { kind, field: field.at(at) }));
        self.at += header::SIZE;
        let reference = row.record.reference;
        for (number, part) in row.parts.iter().enumerate() {
            let part = row::Part::of(part);
            if number > 0 {
                self.field(Kind::PartHead, subobject::SIZE);
            }
            self.field(Kind::Elements, widths(reference).point() * part.points as usize);
            if has_text(reference) {
                self.field(Kind::PartTextLength, 1);
                self.field(Kind::PartText, part.text_length as usize);
                self.field(Kind::PartTextEnd, 1);
            }
        }
        let metric_end = self.at;
        for item in row.items {
            self.item(&row::Item::of(item));
        }
        Bounds { at, metric_end, end: self.at, points: row.parts[0][POINTS] as u32 }
    }

    fn item(&mut self, item: &row::Item) {
        self.field(Kind::ItemCode, item::CODE.width);
        self.field(Kind::ItemType, item::TYPE.width);
        self.field(Kind::ItemScale, item::SCALE.width);
        if item.kind == 128 {
            self.field(Kind::LongLength, item::LONG_LENGTH.width);
        }
        let zeros = closing_zeros(item.kind);
        self.field(Kind::Value, item.length as usize - zeros);
        self.field(Kind::ValueEnd, zeros);
    }

    /// The next field; one of no bytes is left out.
    fn field(&mut self, kind: Kind, width: usize) {
        if width > 0 {
            self.spots.push(Spot { kind, field: Field::new(self.at, width) });
        }
        self.at += width;
    }
}
