//! The record table: what unfolding fills and the writer takes.
//!
//! [`row`] names its numbers. Beside them stand a pool of elements as stored bits and a pool of bytes: texts without their closing zero,
//! values with theirs.
use crate::reference::Reference;
use crate::refusal::low32;
use crate::{Refusal, Setting, Sizes};
use std::fmt;
use sxf_sys::fields::{header, item, subobject, START};
use sxf_sys::lent;
use sxf_sys::row::{self, ITEM_WIDTH, PART_WIDTH, ROW_WIDTH};
use sxf_sys::MARK;

/// A record table in memory of its own.
#[derive(Clone, Debug, Default, PartialEq, Eq)]
pub struct Table {
    /// The numbers.
    pub numbers: Vec<u64>,
    /// The pool of elements, as stored bits.
    pub elements: Vec<u64>,
    /// The pool of bytes.
    pub bytes: Vec<u8>,
}

/// A record table that is lent.
#[derive(Clone, Copy, Debug, Default, PartialEq, Eq)]
pub struct TableRef<'a> {
    /// The numbers.
    pub numbers: &'a [u64],
    /// The pool of elements, as stored bits.
    pub elements: &'a [u64],
    /// The pool of bytes.
    pub bytes: &'a [u8],
}

/// One record's part of a table. The numbers are as they stand there, also where a writer would refuse them.
#[derive(Clone, Copy, Debug, PartialEq, Eq)]
pub struct Row<'a> {
    /// The record's own, by the indices of [`row::Record`].
    pub numbers: &'a [u64; ROW_WIDTH],
    /// Those of each part, by the indices of [`row::Part`].
    pub parts: &'a [[u64; PART_WIDTH]],
    /// Those of each item, by the indices of [`row::Item`].
    pub items: &'a [[u64; ITEM_WIDTH]],
    /// The elements of all parts.
    pub elements: &'a [u64],
    /// The texts of all parts.
    pub texts: &'a [u8],
    /// The values of all items.
    pub values: &'a [u8],
}

impl Table {
    /// Unfolds a sheet. The room is asked for first, and is exact.
    ///
    /// ```
    /// use sxf::{Setting, Table};
    /// # let sheet = sxf::Writer::new(sxf::Head::PLAIN)?.write(Setting::Y1999)?;
    /// assert_eq!(Table::unfold(&sheet, Setting::Y2017)?, Table::default());
    /// # Ok::<(), sxf::Refusal>(())
    /// ```
    pub fn unfold(sheet: &[u8], setting: Setting) -> Result<Table, Refusal> {
        let sizes = crate::check(sheet, setting)?;
        Table::unfold_sized(sheet, setting, &sizes)
    }

    /// Unfolds a sheet into room of these sizes, which checking it has answered. Where unfolding answers others, which would go against the
    /// library's contract, it is ROOM for the first that differs.
    pub(crate) fn unfold_sized(sheet: &[u8], setting: Setting, sizes: &Sizes) -> Result<Table, Refusal> {
        let room = sizes.lengths();
        let (answer, (numbers, elements, bytes)) = lent::unfold_new(sheet, setting.year(), room);
        let written = Sizes::of(answer)?.lengths();
        match (0..3).find(|&output| written[output] != room[output]) {
            None => Ok(Table { numbers, elements, bytes }),
            Some(output) => Err(Refusal { number: Refusal::ROOM, place: output + 1, year: 0 }),
        }
    }

    /// The table, lent.
    pub fn lend(&self) -> TableRef<'_> {
        TableRef { numbers: &self.numbers, elements: &self.elements, bytes: &self.bytes }
    }

    /// The rows, in record order.
    pub fn rows(&self) -> Rows<'_> {
        self.lend().rows()
    }

    /// Adds a row as it is.
    pub fn push_row(&mut self, row: Row<'_>) {
        self.numbers.extend_from_slice(row.numbers);
        self.numbers.extend_from_slice(row.parts.as_flattened());
        self.numbers.extend_from_slice(row.items.as_flattened());
        self.elements.extend_from_slice(row.elements);
        self.bytes.extend_from_slice(row.texts);
        self.bytes.extend_from_slice(row.values);
    }
}

/// Unfolds a sheet into lent slices; ROOM has place 1, 2 or 3 for the first that is too small. A refusal leaves them as they were.
pub fn unfold_into(
    sheet: &[u8],
    setting: Setting,
    numbers: &mut [u64],
    elements: &mut [u64],
    bytes: &mut [u8],
) -> Result<Sizes, Refusal> {
    Sizes::of(lent::unfold(sheet, setting.year(), numbers, elements, bytes))
}

/// Whether a record needs the mark, by the points of its parts in order: "a first count over 65534 needs mark 1" (02, request 2), and without
/// the mark a later count over 65535 "has no room for its upper half".
///
/// ```
/// use sxf::table::needs_mark;
/// assert!(needs_mark([10, 70_000]) && needs_mark([65_535]));
/// assert!(!needs_mark([65_534, 65_535]) && !needs_mark([]));
/// ```
pub fn needs_mark(points: impl IntoIterator<Item = u64>) -> bool {
    let mut points = points.into_iter();
    points.next().is_some_and(|first| first >= MARK) || points.any(|later| later > MARK)
}

impl<'a> TableRef<'a> {
    /// The rows, in record order. It ends before a row that calls for more than there is.
    pub fn rows(self) -> Rows<'a> {
        Rows { rest: self }
    }

    /// How long the sheet of this table is, if the table is well formed: what the writer needs room for.
    pub fn sheet_length(self) -> Option<usize> {
        let mut rows = self.rows();
        let length = rows.by_ref().try_fold(START, |length: usize, row| length.checked_add(row.record_length()?))?;
        (rows.rest == TableRef::default()).then_some(length)
    }

    /// Which number of which record stands at an index, as the writer's refusals name it. None past the last row that is whole; the pools
    /// are not looked at.
    pub fn spot(self, index: usize) -> Option<Spot> {
        let (mut rest, mut start) = (self.numbers, 0);
        for record in 0.. {
            let (row, later) = RowNumbers::take(rest)?;
            let within = index.checked_sub(start)?;
            if within < row.length() {
                return Some(row.spot(record, within));
            }
            start += row.length();
            rest = later;
        }
        None
    }

    fn take_row(self) -> Option<(Row<'a>, TableRef<'a>)> {
        let (RowNumbers { numbers, parts, items }, rest) = RowNumbers::take(self.numbers)?;
        let elements = total(parts, row::POINTS)?.checked_mul(reference_of(numbers).elements())?;
        let (elements, elements_rest) = self.elements.split_at_checked(elements)?;
        let (texts, bytes) = self.bytes.split_at_checked(total(parts, row::TEXT_LENGTH)?)?;
        let (values, bytes) = bytes.split_at_checked(total(items, row::ITEM_LENGTH)?)?;
        let row = Row { numbers, parts, items, elements, texts, values };
        Some((row, TableRef { numbers: rest, elements: elements_rest, bytes }))
    }
}

/// The numbers of a row, without the pools.
struct RowNumbers<'a> {
    numbers: &'a [u64; ROW_WIDTH],
    parts: &'a [[u64; PART_WIDTH]],
    items: &'a [[u64; ITEM_WIDTH]],
}

impl<'a> RowNumbers<'a> {
    fn take(table: &'a [u64]) -> Option<(RowNumbers<'a>, &'a [u64])> {
        let (numbers, rest) = table.split_first_chunk::<ROW_WIDTH>()?;
        let (parts, rest) = take_arrays(rest, numbers[row::PARTS])?;
        let (items, rest) = take_arrays(rest, numbers[row::ITEMS])?;
        Some((RowNumbers { numbers, parts, items }, rest))
    }

    fn length(&self) -> usize {
        row::row_size(self.parts.len(), self.items.len())
    }

    fn spot(&self, record: usize, within: usize) -> Spot {
        let Some(in_parts) = within.checked_sub(ROW_WIDTH) else {
            return Spot { record, inner: Inner::Number(within) };
        };
        let inner = match in_parts.checked_sub(self.parts.as_flattened().len()) {
            None => Inner::Part(in_parts / PART_WIDTH, in_parts % PART_WIDTH),
            Some(in_items) => Inner::Item(in_items / ITEM_WIDTH, in_items % ITEM_WIDTH),
        };
        Spot { record, inner }
    }
}

fn reference_of(numbers: &[u64; ROW_WIDTH]) -> Reference {
    Reference(low32(numbers[row::REFERENCE]))
}

/// The first so many arrays of N numbers, and the numbers after them; none where there are fewer.
fn take_arrays<const N: usize>(numbers: &[u64], count: u64) -> Option<(&[[u64; N]], &[u64])> {
    let length = usize::try_from(count).ok()?.checked_mul(N)?;
    let (arrays, rest) = numbers.split_at_checked(length)?;
    Some((arrays.as_chunks().0, rest))
}

/// The sum of one column of the arrays.
fn total<const N: usize>(arrays: &[[u64; N]], column: usize) -> Option<usize> {
    arrays.iter().try_fold(0usize, |sum, array| sum.checked_add(usize::try_from(array[column]).ok()?))
}

impl<'a> Row<'a> {
    /// The reference bytes.
    pub fn reference(&self) -> Reference {
        reference_of(self.numbers)
    }

    /// How many bytes its record has: header, metric and semantics.
    fn record_length(&self) -> Option<usize> {
        let reference = self.reference();
        let points = self.elements.len() / reference.elements();
        let heads = self.parts.len().checked_sub(1)?.checked_mul(subobject::SIZE)?;
        // Each text has a byte for its length before it and a closing zero after it.
        let texts = if reference.text_in_metric() { self.parts.len().checked_mul(2)?.checked_add(self.texts.len())? } else { 0 };
        let values = self.items.iter().try_fold(0usize, |sum, item| sum.checked_add(item_length(item)?))?;
        [points.checked_mul(reference.point_size())?, heads, texts, values].into_iter().try_fold(header::SIZE, usize::checked_add)
    }
}

/// How many bytes an item has: its head, the length that type 128 has, its value.
fn item_length(numbers: &[u64; ITEM_WIDTH]) -> Option<usize> {
    let row::Item { kind, length, .. } = row::Item::of(numbers);
    usize::try_from(length).ok()?.checked_add(if kind == 128 { item::LONG_LENGTH.after() } else { item::SIZE })
}

/// The rows of a table.
#[derive(Clone, Copy, Debug)]
pub struct Rows<'a> {
    rest: TableRef<'a>,
}

impl<'a> Rows<'a> {
    /// What is left of the table.
    pub fn rest(&self) -> TableRef<'a> {
        self.rest
    }
}

impl<'a> Iterator for Rows<'a> {
    type Item = Row<'a>;

    fn next(&mut self) -> Option<Row<'a>> {
        let (row, rest) = self.rest.take_row()?;
        self.rest = rest;
        Some(row)
    }
}

/// Which number of which record. It prints in words, as `record 0, reference bytes`.
#[derive(Clone, Copy, Debug, PartialEq, Eq)]
pub struct Spot {
    /// The record's number, from 0.
    pub record: usize,
    inner: Inner,
}

impl Spot {
    /// Which of the record's own numbers it is, by the indices of [`row`]; none where it is a part's or an item's.
    pub fn own(&self) -> Option<usize> {
        match self.inner {
            Inner::Number(column) => Some(column),
            Inner::Part(..) | Inner::Item(..) => None,
        }
    }
}

/// A column of the record's own numbers, or the number of a part or an item and a column of that.
#[derive(Clone, Copy, Debug, PartialEq, Eq)]
enum Inner {
    Number(usize),
    Part(usize, usize),
    Item(usize, usize),
}

fn record_word(column: usize) -> &'static str {
    match column {
        row::CODE => "code",
        row::IN_GROUP => "number in group",
        row::GROUP => "group number",
        row::REFERENCE => "reference bytes",
        row::GENERALISATION => "generalisation",
        row::WORD => "word at +24",
        row::PARTS => "parts",
        row::ITEMS => "items",
        row::MARK => "mark",
        _ => "?",
    }
}

fn part_word(column: usize) -> &'static str {
    match column {
        row::POINTS => "points",
        row::TEXT_LENGTH => "text length",
        _ => "?",
    }
}

fn item_word(column: usize) -> &'static str {
    match column {
        row::ITEM_CODE => "code",
        row::ITEM_TYPE => "type",
        row::ITEM_SCALE => "scale byte",
        row::ITEM_LENGTH => "value length",
        _ => "?",
    }
}

impl fmt::Display for Spot {
    fn fmt(&self, f: &mut fmt::Formatter<'_>) -> fmt::Result {
        write!(f, "record {}, ", self.record)?;
        match self.inner {
            Inner::Number(column) => f.write_str(record_word(column)),
            Inner::Part(part, column) => write!(f, "part {part}, {}", part_word(column)),
            Inner::Item(item, column) => write!(f, "item {item}, {}", item_word(column)),
        }
    }
}

#[cfg(test)]
mod tests {
    use super::*;

    /// The numbers of document 01's sheet Q: of its record, its part and its item.
    #[rustfmt::skip]
    const Q: [u64; 15] = [
        0, 0, 0, 0x202, 255, 0, 1, 1, 0,
        1, 0,
        1, 2, 0xFF, 2,
    ];

    fn q() -> TableRef<'static> {
        TableRef { numbers: &Q, elements: &[3, 4], bytes: &[0xF9, 4] }
    }

    #[test]
    fn a_row_is_taken_whole() {
        let row = q().rows().next().expect("a row");
        assert_eq!((row.parts, row.items), (&[[1, 0]][..], &[[1, 2, 0xFF, 2]][..]));
        assert_eq!((row.elements, row.texts, row.values), (&[3, 4][..], &[][..], &[0xF9, 4][..]));
        assert_eq!(q().sheet_length(), Some(494));
    }

    /// A row that states these counts, with these parts after it.
    fn stating(parts: u64, items: u64, after: &[row::Part]) -> Vec<u64> {
        let record = row::Record { parts, items, ..row::Record::default() };
        record.numbers().into_iter().chain(after.iter().flat_map(|part| part.numbers())).collect()
    }

    #[test]
    fn a_row_that_calls_for_more_than_there_is_ends_the_rows() {
        let (many_points, long_text) =
            (row::Part { points: u64::MAX, text_length: 0 }, row::Part { points: 1, text_length: u64::MAX });
        for broken in [
            TableRef { numbers: &Q[..Q.len() - 1], ..q() },
            TableRef { numbers: &Q[..ROW_WIDTH - 1], ..q() },
            TableRef { elements: &[3], ..q() },
            TableRef { bytes: &[0xF9], ..q() },
            TableRef { numbers: &stating(u64::MAX, u64::MAX, &[]), ..q() },
            TableRef { numbers: &stating(1, 0, &[many_points]), ..q() },
            TableRef { numbers: &stating(2, 0, &[many_points, long_text]), ..q() },
        ] {
            assert_eq!(broken.rows().next(), None);
            assert_eq!(broken.sheet_length(), None);
        }
    }

    #[test]
    fn a_table_is_unfolded_into_room_of_its_sizes_or_not_at_all() {
        let sheet = include_bytes!("../../../samples/Q.sxf");
        let sizes = crate::check(sheet, Setting::Y2017).expect("Q is accepted");
        let unfold = |sizes| Table::unfold_sized(sheet, Setting::Y2017, &sizes);
        let table = unfold(sizes).expect("Q is unfolded");
        assert_eq!(table.lend(), q());
        for other in [|size: usize| size + 1, |size: usize| size - 1] {
            let room = |place| Err(Refusal { number: Refusal::ROOM, place, year: 0 });
            assert_eq!(unfold(Sizes { numbers: other(sizes.numbers), ..sizes }), room(1));
            assert_eq!(unfold(Sizes { elements: other(sizes.elements), ..sizes }), room(2));
            assert_eq!(unfold(Sizes { bytes: other(sizes.bytes), ..sizes }), room(3));
        }
    }

    #[test]
    fn spots_are_told_in_words() {
        let told = |index| q().spot(index).map(|spot| spot.to_string());
        let (part, item) = (ROW_WIDTH, ROW_WIDTH + PART_WIDTH);
        assert_eq!(told(row::REFERENCE).as_deref(), Some("record 0, reference bytes"));
        assert_eq!(told(row::MARK).as_deref(), Some("record 0, mark"));
        assert_eq!(told(part + row::TEXT_LENGTH).as_deref(), Some("record 0, part 0, text length"));
        assert_eq!(told(item + row::ITEM_LENGTH).as_deref(), Some("record 0, item 0, value length"));
        assert_eq!((told(Q.len()), told(usize::MAX)), (None, None));
        assert_eq!([row::MARK, part, item].map(|index| q().spot(index).and_then(|spot| spot.own())), [Some(row::MARK), None, None]);
        let twice = [Q, Q].concat();
        let told = |index| TableRef { numbers: &twice, ..q() }.spot(index).map(|spot| spot.to_string());
        assert_eq!(told(Q.len() + item + row::ITEM_CODE).as_deref(), Some("record 1, item 0, code"));
        assert_eq!(TableRef { numbers: &Q[..Q.len() - 1], ..q() }.spot(0), None);
    }
}
