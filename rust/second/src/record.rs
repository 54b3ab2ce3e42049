//! The reading of one record: header, metric parts, semantic items.

use crate::bytes::{u16_at, u32_at};
use crate::item::{is_long_length, Kind};
use crate::reference::Reference;
use crate::refusal::{require, Refusal};
use crate::shape::Shape;
use crate::years::{self, Setting};

pub(crate) const RECORD_IDENTIFIER: u32 = 0x7FFF_7FFF;
pub(crate) const HEADER_BYTES: usize = 32;

/// The points field's value that is the mark: "Points 65535 is a mark: the
/// count is the word at +24" ("Record").
pub(crate) const MARK: u64 = 65535;

/// What a record asked for by its number answers.
#[derive(Clone, Copy, PartialEq, Eq, Debug)]
pub struct Record {
    /// Its place in the sheet.
    pub at: u64,
    /// Its total length.
    pub total: u64,
    /// Class code.
    pub code: u64,
    /// Number in group.
    pub in_group: u64,
    /// Group number.
    pub group: u64,
    /// The reference bytes as one number, byte 20 lowest.
    pub reference: u64,
    /// The visibility byte.
    pub generalisation: u64,
    /// The word at +24, as stored.
    pub word: u64,
    /// 1 + subobjects.
    pub parts: u64,
    /// Semantic items.
    pub items: u64,
    /// 1 where the record carries the mark, else 0.
    pub mark: u64,
    /// The points of the first part.
    pub points: u64,
}

/// What is told of each record while it is read, in the sheet's order.
/// Whoever does not care for a thing leaves it out.
pub(crate) trait Listener {
    /// A header that was read; its items are not counted yet.
    fn header(&mut self, _record: &Record) {}
    /// A part, its points as they are stored.
    fn part(&mut self, _count: u64, _points: &[u8], _shape: Shape, _text: &[u8]) {}
    /// An item, its value with closing zeros.
    fn item(&mut self, _code: u16, _type_byte: u8, _scale: u8, _value: &[u8]) {}
    /// The whole record.
    fn record(&mut self, _number: u64, _record: &Record) {}
}

/// Reads the record that starts at `at` and tells the listener of its parts
/// and items.
pub(crate) fn read_record<L: Listener>(sheet: &[u8], at: usize, setting: Setting, listener: &mut L) -> Result<Record, Refusal> {
    let header = Header::read(sheet, at, setting)?;
    listener.header(&header.record);
    read_metric(sheet, &header, listener)?;
    let has_bytes = header.metric_end < header.end;
    require(header.reference.has_semantics() == has_bytes, Refusal::LENGTH, header.metric_end as u64)?;
    let items = read_items(sheet, &header, setting, listener)?;
    Ok(Record { items, ..header.record })
}

/// A record's header, and where metric and record end.
struct Header {
    record: Record,
    reference: Reference,
    metric: usize,
    metric_end: usize,
    end: usize,
}

impl Header {
    fn read(sheet: &[u8], at: usize, setting: Setting) -> Result<Header, Refusal> {
        let place = at as u64;
        let Some(header) = sheet[at..].first_chunk::<HEADER_BYTES>() else {
            return Err(Refusal::new(Refusal::SHORT, place));
        };
        let identifier = u32_at(header, 0);
        require(identifier == RECORD_IDENTIFIER, Refusal::NOT_SXF, place)?;
        let (total, metric) = read_lengths(header, place, sheet.len() - at)?;
        let reference = Reference([header[20], header[21], header[22]]);
        reference.check(setting, [place + 20, place + 21, place + 22])?;
        let (marked, points) = read_first_count(header, place, setting)?;
        Ok(Header {
            record: Record {
                at: place,
                total: total as u64,
                code: u64::from(u32_at(header, 12)),
                in_group: u64::from(u16_at(header, 16)),
                group: u64::from(u16_at(header, 18)),
                reference: reference.number(),
                generalisation: u64::from(header[23]),
                word: u64::from(u32_at(header, 24)),
                parts: 1 + u64::from(u16_at(header, 28)),
                items: 0,
                mark: u64::from(marked),
                points,
            },
            reference,
            metric: at + HEADER_BYTES,
            metric_end: at + HEADER_BYTES + metric,
            end: at + total,
        })
    }
}

/// Total and metric length, which fit the bytes that are left and each other.
fn read_lengths(header: &[u8; HEADER_BYTES], place: u64, left: usize) -> Result<(usize, usize), Refusal> {
    let total = u64::from(u32_at(header, 4));
    let metric = u64::from(u32_at(header, 8));
    require(total >= HEADER_BYTES as u64, Refusal::LENGTH, place + 4)?;
    require(total <= left as u64, Refusal::SHORT, place + 4)?;
    let most = total - HEADER_BYTES as u64;
    require(metric <= most, Refusal::LENGTH, place + 8)?;
    Ok((total as usize, metric as usize))
}

/// Whether the record carries the mark, and its first part's points: "under the
/// mark any count in the word is good" (document 02, request 2).
fn read_first_count(header: &[u8; HEADER_BYTES], place: u64, setting: Setting) -> Result<(bool, u64), Refusal> {
    let points = u64::from(u16_at(header, 30));
    if points != MARK {
        return Ok((false, points));
    }
    setting.admit(true, years::MARK, place + 30)?;
    let word = u64::from(u32_at(header, 24));
    Ok((true, word))
}

fn read_metric<L: Listener>(sheet: &[u8], header: &Header, listener: &mut L) -> Result<(), Refusal> {
    let shape = header.reference.shape();
    let marked = header.record.mark == 1;
    let mut metric = Span::new(sheet, header.metric, header.metric_end);
    for part in 0..header.record.parts {
        let count = if part == 0 { header.record.points } else { read_subobject_count(&mut metric, marked)? };
        let points = metric.take(count * shape.point_bytes())?;
        let text = if header.reference.has_text() { read_part_text(&mut metric)? } else { &[] };
        listener.part(count, points, shape, text);
    }
    require(metric.is_empty(), Refusal::LENGTH, metric.place())
}

/// The head of a subobject, N1 and N2, as a count of points.
fn read_subobject_count(metric: &mut Span, marked: bool) -> Result<u64, Refusal> {
    let place = metric.place();
    let head = metric.take(4)?;
    let (n1, n2) = (u16_at(head, 0), u16_at(head, 2));
    require(marked || n1 == 0, Refusal::COUNT, place)?;
    Ok(u64::from(n2) + 65536 * u64::from(n1))
}

/// A length byte, the text, and a closing zero, which fit together or not
/// at all.
fn read_part_text<'a>(metric: &mut Span<'a>) -> Result<&'a [u8], Refusal> {
    let length = usize::from(metric.peek(1)?[0]);
    let whole = metric.take(length as u64 + 2)?;
    let closing = whole[length + 1];
    require(closing == 0, Refusal::TEXT, metric.place() - 1)?;
    Ok(&whole[1..length + 1])
}

/// Reads the items to the record's end and counts them.
fn read_items<L: Listener>(sheet: &[u8], header: &Header, setting: Setting, listener: &mut L) -> Result<u64, Refusal> {
    let mut semantics = Span::new(sheet, header.metric_end, header.end);
    let mut items = 0;
    while !semantics.is_empty() {
        read_item(&mut semantics, setting, listener)?;
        items += 1;
    }
    Ok(items)
}

fn read_item<L: Listener>(semantics: &mut Span, setting: Setting, listener: &mut L) -> Result<(), Refusal> {
    let place = semantics.place();
    let head = semantics.peek(4)?;
    let (code, type_byte, scale) = (u16_at(head, 0), head[2], head[3]);
    let kind = Kind::of(type_byte).ok_or(Refusal::new(Refusal::SEMANTIC, place + 2))?;
    setting.admit(kind == Kind::LongText, years::TYPE_128, place + 2)?;
    require(kind.allows_scale(scale), Refusal::SEMANTIC, place + 3)?;
    let (head_bytes, length) = match kind.value_length(scale) {
        Some(length) => (4, length),
        None => (8, read_long_length(semantics)?),
    };
    // Head and value are taken as one, for an item that does not fit is
    // refused at its first byte.
    let value = &semantics.take(head_bytes + length)?[head_bytes as usize..];
    let first_closing = semantics.place() - kind.closing_zeros() as u64;
    require(kind.is_closed(value), Refusal::TEXT, first_closing)?;
    listener.item(code, type_byte, scale, value);
    Ok(())
}

/// The length of a type 128 item, which is the next in the semantics.
fn read_long_length(semantics: &Span) -> Result<u64, Refusal> {
    let length = u64::from(u32_at(semantics.peek(8)?, 4));
    let place = semantics.place() + 4;
    require(is_long_length(length), Refusal::SEMANTIC, place)?;
    Ok(length)
}

/// Bytes of the sheet still to be read, from a place up to an end.
struct Span<'a> {
    left: &'a [u8],
    end: usize,
}

impl<'a> Span<'a> {
    fn new(sheet: &'a [u8], at: usize, end: usize) -> Span<'a> {
        let left = &sheet[at..end];
        Span { left, end }
    }

    /// The place of the next byte.
    fn place(&self) -> u64 {
        (self.end - self.left.len()) as u64
    }

    fn is_empty(&self) -> bool {
        self.left.is_empty()
    }

    /// The next bytes, left where they are; LENGTH at the first of them if
    /// they do not fit.
    fn peek(&self, length: u64) -> Result<&'a [u8], Refusal> {
        let fits = length <= self.left.len() as u64;
        require(fits, Refusal::LENGTH, self.place())?;
        Ok(&self.left[..length as usize])
    }

    /// The next bytes, which are then behind; LENGTH as with `peek`.
    fn take(&mut self, length: u64) -> Result<&'a [u8], Refusal> {
        let taken = self.peek(length)?;
        self.left = &self.left[taken.len()..];
        Ok(taken)
    }
}
