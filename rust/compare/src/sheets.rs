//! A sheet as a list of records, and the way to its bytes through the wrapper's writer and back through its reader.

use crate::SETTING;
use sxf::fields::{passport, Field, Rest};
use sxf::{ElementKind, Head, Height, HeightUnit, NewItem, NewPart, NewRecord, Number, Point, Reference, Unit, Writer};

#[derive(Clone, Debug)]
pub struct Part {
    /// X to the north, Y to the east, height.
    pub points: Vec<[f64; 3]>,
    pub text: Vec<u8>,
}

#[derive(Clone, Debug)]
pub struct Item {
    pub code: u16,
    pub kind: u8,
    pub scale: u8,
    pub value: Vec<u8>,
}

#[derive(Clone, Debug)]
pub struct Record {
    pub code: u32,
    pub localisation: u8,
    pub element: ElementKind,
    pub heights: bool,
    /// Bits of the reference bytes besides those that the other fields set.
    pub more: u32,
    /// Whether the mark 65535 is asked for. The writer sets it too where the points need it.
    pub mark: bool,
    pub parts: Vec<Part>,
    pub items: Vec<Item>,
}

impl Record {
    /// A record of one part of 8-byte elements without text and items.
    pub fn new(localisation: u8, points: &[[f64; 3]]) -> Record {
        let part = Part { points: points.to_vec(), text: Vec::new() };
        Record {
            code: 11_200_000,
            localisation,
            element: ElementKind::Double,
            heights: false,
            more: 0,
            mark: false,
            parts: vec![part],
            items: Vec::new(),
        }
    }

    pub fn part(mut self, points: &[[f64; 3]]) -> Record {
        self.parts.push(Part { points: points.to_vec(), text: Vec::new() });
        self
    }

    pub fn more(mut self, bits: u32) -> Record {
        self.more |= bits;
        self
    }

    pub fn mark(mut self) -> Record {
        self.mark = true;
        self
    }

    pub fn element(mut self, element: ElementKind, heights: bool) -> Record {
        (self.element, self.heights) = (element, heights);
        self
    }

    /// Gives the parts their texts.
    pub fn texts(mut self, texts: &[&[u8]]) -> Record {
        for (part, text) in self.parts.iter_mut().zip(texts) {
            part.text = text.to_vec();
        }
        self.more(Reference::TEXT_IN_METRIC)
    }

    pub fn item(mut self, code: u16, kind: u8, scale: i8, value: &[u8]) -> Record {
        self.items.push(Item { code, kind, scale: scale as u8, value: value.to_vec() });
        self
    }

    fn reference(&self) -> Reference {
        let large = matches!(self.element, ElementKind::Long | ElementKind::Double);
        let floating = matches!(self.element, ElementKind::Single | ElementKind::Double);
        let bit = |set: bool, bit: u32| if set { bit } else { 0 };
        Reference(u32::from(self.localisation) | self.more)
            .with(bit(!self.items.is_empty(), Reference::SEMANTICS))
            .with(bit(large, Reference::ELEMENT_SIZE))
            .with(bit(self.heights, Reference::THREE_DIMENSIONS))
            .with(bit(floating, Reference::FLOATING))
    }

    /// The record as the writer takes it, in the sheet's unit.
    fn to_write(&self, number: usize, unit: Unit) -> NewRecord {
        let reference = self.reference();
        let planar = |value: f64| unit.coordinate(nearest(reference.planar(), value));
        let height = |value: f64| reference.height().map(|kind| HeightUnit::Metres.height(nearest(kind, value)));
        let point = |&[x, y, h]: &[f64; 3]| Point { x: planar(x), y: planar(y), height: height(h) };
        let part = |part: &Part| NewPart::new(part.points.iter().map(point).collect()).text(part.text.clone());
        let item = |item: &Item| NewItem { code: item.code, kind: item.kind, scale: item.scale, bytes: item.value.clone() };
        let (in_group, group) = ((number + 1) as u16, 7);
        let items = self.items.iter().map(item).collect();
        let record = NewRecord { in_group, group, items, mark: self.mark, ..NewRecord::new(self.code, reference) };
        self.parts.iter().map(part).fold(record, NewRecord::part)
    }

    /// The record that was read.
    fn of(record: &sxf::Record<'_>) -> Record {
        let reference = record.reference();
        let value = |number: Number| number.value().expect("a number");
        let point =
            |point: Point| [point.x.number(), point.y.number(), point.height.map_or(Number::Whole(0), Height::number)].map(value);
        let part = |part: NewPart| Part { points: part.points.into_iter().map(point).collect(), text: part.text };
        let item = |item: NewItem| Item { code: item.code, kind: item.kind, scale: item.scale, value: item.bytes };
        let NewRecord { code, parts, items, mark, .. } = NewRecord::from(*record);
        Record {
            code,
            localisation: reference.localisation_number() as u8,
            element: reference.planar(),
            heights: reference.three_dimensions(),
            more: reference.0 - reference.localisation_number(),
            mark,
            parts: parts.into_iter().map(part).collect(),
            items: items.into_iter().map(item).collect(),
        }
    }
}

/// The number of this kind that stands for a value, rounded where the kind has no such number.
fn nearest(kind: ElementKind, value: f64) -> Number {
    match kind {
        ElementKind::Short => Number::Whole((value as u16).into()),
        ElementKind::Long => Number::Whole((value as i32).into()),
        ElementKind::Single => Number::Single(value as f32),
        ElementKind::Double => Number::Double(value),
    }
}

/// A sheet to be written: what stands in the passport, and the records.
#[derive(Clone)]
pub struct Sheet {
    /// The flags at +96.
    pub flags: u8,
    pub coding: u8,
    pub accuracy: u8,
    pub unit: u8,
    pub scale: u32,
    pub resolution: i32,
    /// X and Y of the south-west, north-west, north-east and south-east corner in metres, and the same on the device.
    pub corners: [f64; 8],
    pub frame: [i32; 8],
    pub records: Vec<Record>,
}

/// The flags at +96 with the bits of real coordinates, and without.
pub const REAL: u8 = 0x1B;
pub const DEVICE: u8 = 0x03;

/// The frame's corners on the device, eight numbers of four bytes. The library carries them unread.
const FRAME: Field = Field::new(316, 32);

impl Sheet {
    /// Real coordinates in metres, texts in the Windows coding. The resolution is not 0, since GDAL opens no sheet with 0 there.
    pub fn real(records: Vec<Record>) -> Sheet {
        Sheet {
            flags: REAL,
            coding: 1,
            accuracy: 0,
            unit: 0,
            scale: 10_000,
            resolution: 20_000,
            corners: [0.0; 8],
            frame: [0; 8],
            records,
        }
    }

    /// Device points, with a frame on the device and on the ground.
    pub fn device(records: Vec<Record>) -> Sheet {
        let corners = [6500.0, 8000.0, 11_500.0, 8000.0, 11_500.0, 13_000.0, 6500.0, 13_000.0];
        let frame = [100, 200, 10_100, 200, 10_100, 10_200, 100, 10_200];
        Sheet { flags: DEVICE, corners, frame, ..Sheet::real(records) }
    }

    fn rest(&self) -> Rest {
        let mut rest = [0; passport::REST.width];
        let mut put = |field: Field, bytes: &[u8]| rest[passport::in_rest(field).range()].copy_from_slice(bytes);
        put(passport::FLAGS, &[self.flags]);
        put(passport::LABELS, &[self.coding]);
        put(passport::ACCURACY, &[self.accuracy]);
        put(passport::CORNERS, self.corners.map(f64::to_le_bytes).as_flattened());
        put(passport::UNIT, &[self.unit]);
        put(passport::RESOLUTION, &self.resolution.to_le_bytes());
        put(FRAME, self.frame.map(i32::to_le_bytes).as_flattened());
        rest
    }

    /// The bytes of the sheet, made by the archive's writer.
    pub fn write(&self) -> Vec<u8> {
        let head = Head {
            date: b"20261115",
            designation: b"N-37-1",
            scale: self.scale,
            title: b"Sheet",
            rest: &self.rest(),
            designation2: b"N-37-1",
            carried: &[self.flags, self.coding, 0, 0],
        };
        let mut writer = Writer::new(head).expect("the writer takes the head");
        for (number, record) in self.records.iter().enumerate() {
            writer.push(&record.to_write(number, writer.unit())).expect("the record fits its sheet");
        }
        writer.write(SETTING).expect("the writer takes the sheet")
    }
}

/// The records of a sheet, read by the archive's reader.
pub fn read(sheet: &[u8]) -> Vec<Record> {
    let sheet = sxf::Sheet::read(sheet, SETTING).expect("the reader takes the sheet");
    sheet.records().map(|record| Record::of(&record)).collect()
}
