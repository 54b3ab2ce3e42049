//! A sheet is written, from a head and a record table.
use crate::coordinates::{Coordinate, ElementKind, Height, HeightUnit, Unit};
use crate::head::Head;
use crate::new_item::NewItem;
use crate::part::{Part, Point};
use crate::record::Record;
use crate::table::{needs_mark, Row, Table, TableRef};
use crate::{Coding, NoCharacter, Reference, Refusal, Setting, Sheet, LIMIT};
use std::error::Error;
use std::fmt;
use sxf_sys::lent::{self, Contents};
use sxf_sys::row::{self, PART_WIDTH};

/// Writes a sheet. The room is worked out from the table, and is exact.
///
/// Head and table of a sheet that was read, written for the same setting, give its bytes with the tails of its text fields
/// [cleared](Sheet::cleared) and the sum to match; where all four [are clean](Sheet::tails), its bytes.
///
/// A refusal's place is a byte of the sheet where it is the head's, and an index of the table's numbers where it is the table's; the head is
/// checked first, so [`check_head`] tells which.
///
/// ```
/// use sxf::{write, Head, Setting, TableRef};
/// // Document 01's sheet P.
/// let head = Head { designation: b"A", designation2: b"A", ..Head::PLAIN };
/// let table = TableRef { numbers: &[0, 0, 0, 2, 255, 0, 1, 0, 0, 1, 0], elements: &[3, 4], bytes: &[] };
/// let sheet = write(&head, table, Setting::Y1999)?;
/// assert_eq!(sxf::check(&sheet, Setting::Y1999)?.sum, 1865);
/// # Ok::<(), sxf::Refusal>(())
/// ```
pub fn write(head: &Head<'_>, table: TableRef<'_>, setting: Setting) -> Result<Vec<u8>, Refusal> {
    // A table with no length is refused for its form, and one over the limit for that, both before ROOM.
    let room = table.sheet_length().unwrap_or(0).min(LIMIT);
    let mut out = vec![0; room];
    let length = write_into(head, table, setting, &mut out)?;
    out.truncate(length);
    Ok(out)
}

/// Writes a sheet into a lent slice: how many of its bytes are the sheet. A refusal leaves it as it was.
pub fn write_into(head: &Head<'_>, table: TableRef<'_>, setting: Setting, out: &mut [u8]) -> Result<usize, Refusal> {
    let Head { date, designation, scale, title, rest, designation2, carried } = *head;
    let TableRef { numbers: table, elements, bytes } = table;
    let from = Contents { date, designation, scale, title, rest, designation2, carried, table, elements, bytes };
    let answer = lent::write(setting.year(), &from, out);
    Refusal::answered(answer.number, answer.place, answer.year)?;
    Ok(answer.length as usize)
}

/// Whether a head is refused, whatever the table: the sheet of no record is written.
pub fn check_head(head: &Head<'_>, setting: Setting) -> Result<(), Refusal> {
    write(head, TableRef::default(), setting).map(drop)
}

/// A sheet to be written: its head, and the records pushed so far.
#[derive(Clone, Debug)]
pub struct Writer<'a> {
    head: Head<'a>,
    units: Units,
    table: Table,
}

/// The units that a sheet's points are in.
#[derive(Clone, Copy, Debug)]
struct Units {
    plane: Unit,
    height: HeightUnit,
}

impl Units {
    fn of(sheet: &Sheet<'_>) -> Units {
        Units { plane: sheet.unit(), height: sheet.height_unit() }
    }
}

impl<'a> Writer<'a> {
    /// A sheet of no record. A head that is refused at the latest setting is refused here.
    pub fn new(head: Head<'a>) -> Result<Writer<'a>, Refusal> {
        let empty = write(&head, TableRef::default(), Setting::Y2017)?;
        let units = Units::of(&Sheet::read(&empty, Setting::Y2017)?);
        Ok(Writer { head, units, table: Table::default() })
    }

    /// The unit of the sheet, which its head says.
    pub fn unit(&self) -> Unit {
        self.units.plane
    }

    /// The unit of the sheet's heights, which its head says.
    pub fn height_unit(&self) -> HeightUnit {
        self.units.height
    }

    /// The record table so far.
    pub fn table(&self) -> TableRef<'_> {
        self.table.lend()
    }

    /// Adds a typed record. Coordinates must be in the sheet's unit, heights in that of its heights, and numbers such that the record's elements hold them; nothing is
    /// rounded. What else is wrong with it is refused when the sheet is written.
    ///
    /// ```
    /// use sxf::{Head, Localisation, Reference, NewItem, NewPart, NewRecord, Number, Point, Setting, Writer};
    ///
    /// let mut writer = Writer::new(Head::PLAIN)?;
    /// let device = |n| writer.unit().coordinate(Number::Whole(n));
    /// let point = Point { x: device(3), y: device(4), height: None };
    /// let record = NewRecord::new(0, Reference::new(Localisation::Point))
    ///     .part(NewPart::new(vec![point]))
    ///     .item(NewItem::decimal(1, 1273, -1)?);
    /// writer.push(&record)?;
    /// assert_eq!(writer.write(Setting::Y1999)?.len(), 494);
    /// # Ok::<(), Box<dyn std::error::Error>>(())
    /// ```
    pub fn push(&mut self, record: &NewRecord) -> Result<(), Misfit> {
        let before = self.table.elements.len();
        let added = record.add_elements(self.units, &mut self.table.elements);
        if added.is_err() {
            self.table.elements.truncate(before);
            return added;
        }
        self.table.numbers.extend(record.numbers());
        self.table.bytes.extend(record.parts.iter().flat_map(|part| &part.text));
        self.table.bytes.extend(record.items.iter().flat_map(|item| &item.bytes));
        Ok(())
    }

    /// Adds a row as it is, as of a record that was read. Its elements are taken as stored, in whatever unit the sheet has.
    pub fn push_row(&mut self, row: Row<'_>) {
        self.table.push_row(row);
    }

    /// Writes the sheet. A refusal's place is as for [`write()`]; where it is an index of the table's numbers, [`spot`](TableRef::spot) names the
    /// number there.
    ///
    /// ```
    /// use sxf::{Head, NewPart, NewRecord, Reference, Setting, Writer};
    ///
    /// let mut writer = Writer::new(Head::PLAIN)?;
    /// writer.push(&NewRecord::new(31_120_000, Reference(1)).part(NewPart::default()).mark())?;
    /// let refusal = writer.write(Setting::Y1999).unwrap_err();
    /// let spot = writer.table().spot(refusal.place).expect("a number of the table");
    /// assert_eq!((refusal.name(), spot.to_string().as_str()), ("TOO NEW", "record 0, mark"));
    /// # Ok::<(), Box<dyn std::error::Error>>(())
    /// ```
    pub fn write(&self, setting: Setting) -> Result<Vec<u8>, Refusal> {
        write(&self.head, self.table.lend(), setting)
    }
}

/// A record to be written.
#[derive(Clone, Debug, PartialEq)]
pub struct NewRecord {
    /// Its class code.
    pub code: u32,
    /// Its number in its group.
    pub in_group: u16,
    /// Its group's number.
    pub group: u16,
    /// Its reference bytes.
    pub reference: Reference,
    /// Its generalisation byte; 255 is unset.
    pub generalisation: u8,
    /// The word at +24, which is carried unread. Under the mark it is not looked at: the first part's points stand there.
    pub word: u32,
    /// The object itself, then its subobjects.
    pub parts: Vec<NewPart>,
    /// Its semantic items.
    pub items: Vec<NewItem>,
    /// Whether the mark is asked for. A record whose points [need it](needs_mark) has it too where this is false.
    pub mark: bool,
}

impl NewRecord {
    /// A record of no part and no item, visibility unset.
    pub fn new(code: u32, reference: Reference) -> NewRecord {
        let (parts, items) = (Vec::new(), Vec::new());
        NewRecord { code, in_group: 0, group: 0, reference, generalisation: 255, word: 0, parts, items, mark: false }
    }

    /// The same with one more part.
    pub fn part(mut self, part: NewPart) -> NewRecord {
        self.parts.push(part);
        self
    }

    /// The same with one more item, and the semantics flag that says so.
    pub fn item(mut self, item: NewItem) -> NewRecord {
        self.reference = self.reference.with(Reference::SEMANTICS);
        self.items.push(item);
        self
    }

    /// The same with the mark asked for, which came in 2004.
    ///
    /// ```
    /// use sxf::{Head, NewPart, NewRecord, Reference, Setting, Sheet, Writer};
    ///
    /// let mut writer = Writer::new(Head::PLAIN)?;
    /// writer.push(&NewRecord::new(31_120_000, Reference(1)).part(NewPart::default()).mark())?;
    /// assert!(Sheet::read(&writer.write(Setting::Y2004)?, Setting::Y2017)?.record(0)?.mark());
    /// assert_eq!(writer.write(Setting::Y1999).unwrap_err().name(), "TOO NEW");
    /// # Ok::<(), Box<dyn std::error::Error>>(())
    /// ```
    pub fn mark(mut self) -> NewRecord {
        self.mark = true;
        self
    }

    /// The mark, and the word at +24: the library refuses "mark 1 with a word that differs from the first count" (02, request 2).
    fn mark_and_word(&self) -> (bool, u64) {
        let mut points = self.parts.iter().map(|part| part.points.len() as u64);
        if self.mark || needs_mark(points.clone()) {
            (true, points.next().unwrap_or(0))
        } else {
            (false, self.word.into())
        }
    }

    fn numbers(&self) -> impl Iterator<Item = u64> + '_ {
        let (mark, word) = self.mark_and_word();
        let record = row::Record {
            code: self.code.into(),
            in_group: self.in_group.into(),
            group: self.group.into(),
            reference: self.reference.0.into(),
            generalisation: self.generalisation.into(),
            word,
            parts: self.parts.len() as u64,
            items: self.items.len() as u64,
            mark: mark.into(),
        };
        let parts = self.parts.iter().flat_map(NewPart::numbers);
        let items = self.items.iter().flat_map(NewItem::numbers);
        record.numbers().into_iter().chain(parts).chain(items)
    }

    /// Adds the elements of all points, up to the first point that does not fit.
    fn add_elements(&self, units: Units, elements: &mut Vec<u64>) -> Result<(), Misfit> {
        let (planar, height) = (self.reference.planar(), self.reference.height());
        for (part, new) in self.parts.iter().enumerate() {
            for (number, point) in new.points.iter().enumerate() {
                let misfit = |why| Misfit { part, point: number, why };
                store(point, planar, height, units, elements).map_err(misfit)?;
            }
        }
        Ok(())
    }
}

/// A record that was read, to be written again or changed first. Its labels are the bytes that they were: a head whose byte 97 names another
/// coding makes other characters of them. One that was read with the mark has it asked for, so without the long part that needed it the
/// record still has it, and is TOO NEW at the mark's number for 1999. Where `mark` is then set to false, the old count of the first part's points
/// stays as the word, and is carried.
///
/// ```
/// use sxf::{NewRecord, Setting, Sheet, Writer};
/// # let bytes = include_bytes!("../../../samples/Q.sxf");
/// let sheet = Sheet::read(bytes, Setting::Y2017)?;
/// let mut writer = Writer::new(sheet.head()?)?;
/// for record in sheet.records() {
///     writer.push(&NewRecord { code: 31_410_000, ..record.into() })?;
/// }
/// # assert_eq!(Sheet::read(&writer.write(Setting::Y2017)?, Setting::Y2017)?.record(0)?.code(), 31_410_000);
/// # Ok::<(), Box<dyn std::error::Error>>(())
/// ```
impl From<Record<'_>> for NewRecord {
    fn from(record: Record<'_>) -> NewRecord {
        NewRecord {
            code: record.code(),
            in_group: record.in_group(),
            group: record.group(),
            reference: record.reference(),
            generalisation: record.generalisation(),
            word: record.word(),
            parts: record.parts().map(NewPart::from).collect(),
            items: record.items().map(NewItem::from).collect(),
            mark: record.mark(),
        }
    }
}

/// Adds the elements of a point, or says why it does not fit its record or its sheet.
fn store(
    point: &Point,
    planar: ElementKind,
    height: Option<ElementKind>,
    units: Units,
    elements: &mut Vec<u64>,
) -> Result<(), Why> {
    for coordinate in [point.x, point.y] {
        elements.push(planar_bits(coordinate, planar, units.plane)?);
    }
    match (height, point.height) {
        (None, None) => Ok(()),
        (Some(kind), Some(height)) => {
            elements.push(height_bits(height, kind, units.height)?);
            Ok(())
        }
        (called_for, _) => Err(Why::Height(called_for.is_some())),
    }
}

fn planar_bits(coordinate: Coordinate, kind: ElementKind, unit: Unit) -> Result<u64, Why> {
    if coordinate.unit() != unit {
        return Err(Why::Unit(coordinate.unit(), unit));
    }
    kind.bits(coordinate.number()).ok_or(Why::Number(kind))
}

fn height_bits(height: Height, kind: ElementKind, unit: HeightUnit) -> Result<u64, Why> {
    if height.unit() != unit {
        return Err(Why::HeightUnit(height.unit(), unit));
    }
    kind.bits(height.number()).ok_or(Why::Number(kind))
}

/// A part to be written.
#[derive(Clone, Debug, Default, PartialEq)]
pub struct NewPart {
    /// Its points.
    pub points: Vec<Point>,
    /// Its text, without the closing zero; empty without the text bit.
    pub text: Vec<u8>,
}

impl NewPart {
    /// A part of these points, with no text.
    pub fn new(points: Vec<Point>) -> NewPart {
        NewPart { points, text: Vec::new() }
    }

    /// The same with a text, in the coding of the sheet's labels, or in UTF-16 where the record has the Unicode bit.
    pub fn text(mut self, text: impl Into<Vec<u8>>) -> NewPart {
        self.text = text.into();
        self
    }

    /// The same with these characters as its text, in a coding: the [record's own](Reference::label_coding), else the
    /// [sheet's](Head::label_coding).
    ///
    /// ```
    /// use sxf::{Coding, NewPart};
    /// let part = NewPart::new(Vec::new()).string(Coding::Dos, "Газ")?;
    /// assert_eq!(part.text, [0x83, 0xA0, 0xA7]);
    /// # Ok::<(), sxf::NoCharacter>(())
    /// ```
    pub fn string(self, coding: Coding, text: &str) -> Result<NewPart, NoCharacter> {
        Ok(self.text(coding.bytes(text)?))
    }

    fn numbers(&self) -> [u64; PART_WIDTH] {
        row::Part { points: self.points.len() as u64, text_length: self.text.len() as u64 }.numbers()
    }
}

impl From<Part<'_>> for NewPart {
    fn from(part: Part<'_>) -> NewPart {
        NewPart { points: part.points().collect(), text: part.text().map_or(Vec::new(), |text| text.bytes.to_vec()) }
    }
}

/// A point that does not fit its record or its sheet.
#[derive(Clone, Copy, Debug, PartialEq, Eq)]
pub struct Misfit {
    /// The part's number, from 0.
    pub part: usize,
    /// The point's number, from 0.
    pub point: usize,
    /// What does not fit.
    pub why: Why,
}

/// What does not fit.
#[derive(Clone, Copy, Debug, PartialEq, Eq)]
pub enum Why {
    /// A coordinate in the first unit, where the sheet has the second.
    Unit(Unit, Unit),
    /// A height in the first unit, where the sheet's heights are in the second.
    HeightUnit(HeightUnit, HeightUnit),
    /// A number that an element of this kind does not hold exactly.
    Number(ElementKind),
    /// A height is missing (true), or there is one in two dimensions (false).
    Height(bool),
}

impl fmt::Display for Misfit {
    fn fmt(&self, f: &mut fmt::Formatter<'_>) -> fmt::Result {
        write!(f, "part {}, point {}: ", self.part, self.point)?;
        match self.why {
            Why::Unit(given, unit) => write!(f, "a coordinate in {given}, where the sheet is in {unit}"),
            Why::HeightUnit(given, unit) => write!(f, "a height in {given}, where the sheet's heights are in {unit}"),
            Why::Number(kind) => write!(f, "a number that its element ({kind:?}) does not hold exactly"),
            Why::Height(true) => f.write_str("no height, where the record has three dimensions"),
            Why::Height(false) => f.write_str("a height, where the record has two dimensions"),
        }
    }
}

impl Error for Misfit {}

#[cfg(test)]
mod tests {
    use super::*;
    use crate::coordinates::Number;
    use crate::reference::Localisation;

    fn point(unit: Unit, x: i64) -> Point {
        let at = |n| unit.coordinate(Number::Whole(n));
        Point { x: at(x), y: at(0), height: None }
    }

    fn pushed(reference: Reference, point: Point) -> Result<(), Why> {
        let record = NewRecord::new(0, reference).part(NewPart::new(vec![point]));
        Writer::new(Head::PLAIN).expect("a plain head").push(&record).map_err(|misfit| misfit.why)
    }

    #[test]
    fn a_point_must_fit() {
        let plane = Reference::new(Localisation::Point);
        let space = plane.with(Reference::THREE_DIMENSIONS);
        let device = Unit::DevicePoints;
        assert_eq!(pushed(plane, point(device, 65535)), Ok(()));
        assert_eq!(pushed(plane, point(device, 65536)), Err(Why::Number(ElementKind::Short)));
        assert_eq!(pushed(plane, point(Unit::Metres, 1)), Err(Why::Unit(Unit::Metres, device)));
        assert_eq!(pushed(space, point(device, 1)), Err(Why::Height(true)));
        let high = |number| Point { height: Some(HeightUnit::Metres.height(number)), ..point(device, 1) };
        assert_eq!(pushed(plane, high(Number::Single(1.0))), Err(Why::Height(false)));
        assert_eq!(pushed(space, high(Number::Single(1.0))), Ok(()));
        assert_eq!(pushed(space, high(Number::Whole(1))), Err(Why::Number(ElementKind::Single)));
        let other = HeightUnit::Unknown(1);
        let unknown = Point { height: Some(other.height(Number::Single(1.0))), ..point(device, 1) };
        assert_eq!(pushed(space, unknown), Err(Why::HeightUnit(other, HeightUnit::Metres)));
    }

    #[test]
    fn a_refused_push_adds_nothing() {
        let mut writer = Writer::new(Head::PLAIN).expect("a plain head");
        let part = NewPart::new(vec![point(Unit::DevicePoints, 1), point(Unit::DevicePoints, -1)]);
        assert!(writer.push(&NewRecord::new(0, Reference(0)).part(part)).is_err());
        assert_eq!(writer.table(), TableRef::default());
    }
}
