//! Damage done to sheets: mostly small, so that it is found deep inside.

use crate::numbers::Numbers;
use crate::places::{Bounds, Kind, Places, Spot};
use crate::sheets::{put_sum_right, small_sheet, Made};
use crate::stored::u32_in;
use sxf_sys::fields::{descriptor, header, Field, START};
use sxf_sys::MARK;

/// A sheet that is damaged step by step, and what was done to it. The places
/// are those before the first damage; later ones may miss, which does no harm.
struct Damaged<'a> {
    sheet: Vec<u8>,
    places: &'a Places,
    year: u32,
    notes: Vec<String>,
}

/// One to three damages, mostly one, and the sum mostly put right.
pub fn damage(numbers: &mut Numbers, made: &Made, places: &Places) -> (Vec<u8>, Vec<String>) {
    let mut damaged = Damaged { sheet: made.sheet.clone(), places, year: made.year, notes: Vec::new() };
    for _ in 0..numbers.pick(&[1, 1, 1, 2, 3]) {
        damaged.once(numbers);
    }
    if numbers.chance(9, 10) {
        put_sum_right(&mut damaged.sheet);
        damaged.notes.push("sum put right".into());
    }
    (damaged.sheet, damaged.notes)
}

impl Damaged<'_> {
    fn once(&mut self, numbers: &mut Numbers) {
        match numbers.below(20) {
            0..=8 => self.a_field(numbers),
            9 => self.bits(numbers),
            10 => self.cut(numbers),
            11 => self.insert(numbers),
            12 => self.splice(numbers),
            13 => self.record_moved(numbers),
            14..=16 => self.record_resized(numbers),
            17 => self.mark(numbers),
            18 => self.end(numbers),
            _ => self.semantics_dropped(numbers),
        }
    }

    fn note(&mut self, note: String) {
        self.notes.push(note);
    }

    /// A field that is there: each kind of field as likely as another, or
    /// each field as likely as another.
    fn spot(&self, numbers: &mut Numbers) -> Spot {
        let spots = &self.places.spots;
        let any = numbers.pick(spots);
        if numbers.chance(1, 2) {
            return any;
        }
        let kind = KINDS[numbers.index(KINDS.len())];
        let of_kind = spots.iter().filter(|spot| spot.kind == kind);
        let count = of_kind.clone().count();
        if count == 0 {
            return any;
        }
        let nth = numbers.index(count);
        of_kind.clone().nth(nth).copied().unwrap_or(any)
    }

    fn a_field(&mut self, numbers: &mut Numbers) {
        let Spot { kind, field } = self.spot(numbers);
        self.note(format!("{kind:?} at {} altered", field.place));
        let end = self.sheet.len().min(field.after());
        let Some(field) = self.sheet.get_mut(field.place..end) else {
            return;
        };
        if field.is_empty() {
            return;
        }
        match kind {
            Kind::Text => alter_text(numbers, field),
            Kind::ItemType => field[0] = numbers.pick(&TYPES),
            Kind::ItemScale => {
                let next = field[0].wrapping_add(1);
                let before = field[0].wrapping_sub(1);
                field[0] = numbers.pick(&[0, 0x7F, 0x80, 0xFE, 0xFF, next, before]);
            }
            Kind::Reference if numbers.chance(1, 4) => field[0] ^= numbers.pick(&[0x08, 0x10]),
            Kind::Reference | Kind::Flags if numbers.chance(1, 2) => field[0] = numbers.byte(),
            _ if field.len() <= 4 => alter_number(numbers, field),
            _ => {
                let at = numbers.index(field.len());
                field[at] = numbers.byte();
            }
        }
    }

    fn bits(&mut self, numbers: &mut Numbers) {
        for _ in 0..numbers.pick(&[1, 1, 2, 5]) {
            if self.sheet.is_empty() {
                return;
            }
            let at = numbers.index(self.sheet.len());
            let bit = numbers.below(8);
            self.sheet[at] ^= 1 << bit;
            self.note(format!("bit {bit} of {at} turned"));
        }
    }

    /// A place: any, or at the edge of a field or of a record.
    fn place(&self, numbers: &mut Numbers) -> usize {
        let at = match numbers.below(3) {
            0 => numbers.index(self.sheet.len() + 1),
            1 => numbers.pick(&self.places.spots).field.place + numbers.index(2),
            _ => self.a_record(numbers).map_or(START, |record| numbers.pick(&[record.at, record.end])),
        };
        at.min(self.sheet.len())
    }

    fn cut(&mut self, numbers: &mut Numbers) {
        let at = self.place(numbers);
        let left = self.sheet.len() - at;
        let length = match numbers.below(3) {
            0 => left,
            1 => numbers.index(left + 1),
            _ => (1 + numbers.index(8)).min(left),
        };
        self.sheet.drain(at..at + length);
        self.note(format!("{length} bytes cut out at {at}"));
    }

    fn insert(&mut self, numbers: &mut Numbers) {
        let at = self.place(numbers);
        let length = 1 + numbers.mostly(8, 80) as usize;
        let mut bytes = numbers.bytes(length);
        if numbers.chance(1, 3) {
            bytes.fill(0);
        }
        self.sheet.splice(at..at, bytes);
        self.note(format!("{length} bytes put in at {at}"));
    }

    /// Bytes of another sheet: its end after this one's start, its records
    /// after this one's head or records, or a few over a few.
    fn splice(&mut self, numbers: &mut Numbers) {
        let other = small_sheet(numbers, self.year).sheet;
        if self.sheet.len() < START {
            return;
        }
        let count = self.records();
        let other_count = u32_in(&other, descriptor::COUNT);
        match numbers.below(4) {
            0 => {
                let at = self.place(numbers);
                let from = numbers.index(other.len() + 1);
                self.sheet.truncate(at);
                self.sheet.extend_from_slice(&other[from..]);
                self.note(format!("from {at} on the other sheet's bytes from {from}"));
            }
            1 => {
                self.sheet.truncate(START);
                self.sheet.extend_from_slice(&other[START..]);
                let count = numbers.pick(&[count, other_count]);
                self.set_records(count);
                self.note(format!("the other sheet's records, count {count}"));
            }
            2 => {
                self.sheet.extend_from_slice(&other[START..]);
                let count = count.wrapping_add(numbers.pick(&[0, other_count]));
                self.set_records(count);
                self.note(format!("the other sheet's records after, count {count}"));
            }
            _ => {
                let length = (1 + numbers.index(64)).min(other.len());
                let from = numbers.index(other.len() - length + 1);
                let at = numbers.index(self.sheet.len());
                let end = self.sheet.len().min(at + length);
                self.sheet[at..end].copy_from_slice(&other[from..from + end - at]);
                self.note(format!("{length} bytes at {at} as in the other at {from}"));
            }
        }
    }

    /// A record taken out, doubled, or put before the first; the count goes
    /// with it, mostly.
    fn record_moved(&mut self, numbers: &mut Numbers) {
        let Some(record) = self.a_record(numbers) else {
            return self.end(numbers);
        };
        let Some(bytes) = self.sheet.get(record.at..record.end) else {
            return;
        };
        let bytes = bytes.to_vec();
        let mut count = self.records();
        let at = record.at;
        match numbers.below(3) {
            0 => {
                self.sheet.drain(record.at..record.end);
                count = count.wrapping_sub(1);
                self.note(format!("the record at {at} taken out"));
            }
            1 => {
                self.sheet.splice(record.end..record.end, bytes);
                count = count.wrapping_add(1);
                self.note(format!("the record at {at} doubled"));
            }
            _ => {
                self.sheet.drain(record.at..record.end);
                self.sheet.splice(START..START, bytes);
                self.note(format!("the record at {at} put before the first"));
            }
        }
        if numbers.chance(2, 3) {
            self.set_records(count);
        }
    }

    /// Bytes put in or cut out within a record's metric or semantics, mostly
    /// at their end, with one, both or none of its lengths going along.
    fn record_resized(&mut self, numbers: &mut Numbers) {
        let Some(record) = self.a_record(numbers) else {
            return self.end(numbers);
        };
        let metric = record.at + header::SIZE;
        if self.sheet.len() < record.end || self.sheet.len() < metric {
            return;
        }
        let in_metric = numbers.chance(1, 2) || record.metric_end == record.end;
        let (from, to) = if in_metric { (metric, record.metric_end) } else { (record.metric_end, record.end) };
        let most = numbers.pick(&[1, 2, 4, 8, 40]);
        let change = 1 + numbers.below(most) as usize;
        let spread = if numbers.chance(1, 2) { to - from } else { 0 };
        let grows = numbers.chance(1, 2);
        let change = if grows { change } else { change.min(to - from) };
        let at = to - numbers.index(spread + 1);
        let at = if grows { at } else { at.min(to - change) };
        if grows {
            let mut bytes = numbers.bytes(change);
            if numbers.chance(1, 2) {
                bytes.fill(0);
            }
            self.sheet.splice(at..at, bytes);
        } else {
            self.sheet.drain(at..at + change);
        }
        self.note(format!("{change} bytes {} at {at}", if grows { "put in" } else { "cut out" }));
        let by = if grows { change as u32 } else { (change as u32).wrapping_neg() };
        let total_goes = numbers.chance(9, 10);
        let metric_goes = in_metric != numbers.chance(1, 10);
        if total_goes {
            self.add(header::TOTAL.at(record.at), by);
        }
        if metric_goes {
            self.add(header::METRIC.at(record.at), by);
        }
        self.note(format!("in the record at {}: total goes along: {total_goes}, metric: {metric_goes}", record.at));
    }

    /// The mark put or taken away, with a word that is the first count, one
    /// about it, or another.
    fn mark(&mut self, numbers: &mut Numbers) {
        let Some(record) = self.a_record(numbers) else {
            return self.end(numbers);
        };
        if self.sheet.len() < record.at + header::SIZE {
            return;
        }
        const THE_MARK: u16 = MARK as u16;
        let (count, any) = (record.points, numbers.any() as u32);
        let about = [count, count.wrapping_add(1), count.wrapping_sub(1), count ^ 1 << 16, count ^ 1 << 31];
        let other = [0, 65534, 65535, 65536, u32::MAX, any, any & 0xFFFF];
        let word = if numbers.chance(1, 2) { numbers.pick(&about) } else { numbers.pick(&other) };
        let points = numbers.pick(&[count as u16, THE_MARK - 1, THE_MARK, THE_MARK, THE_MARK]);
        self.put(header::POINTS.at(record.at), &points.to_le_bytes());
        self.put(header::WORD.at(record.at), &word.to_le_bytes());
        self.note(format!("{points} points and the word {word} at {}", record.at));
    }

    /// More or fewer records than are there, or bytes after the last.
    fn end(&mut self, numbers: &mut Numbers) {
        if self.sheet.len() < START {
            return;
        }
        let length = match numbers.below(3) {
            0 => 0,
            1 => 1 + numbers.index(34),
            _ => header::SIZE,
        };
        let mut bytes = numbers.bytes(length);
        if numbers.chance(1, 2) && length >= header::TOTAL.after() {
            bytes[header::IDENTIFIER.range()].copy_from_slice(&header::IDENTIFIER_IS.to_le_bytes());
            let total = numbers.pick(&[0, 31, length as u32, length as u32 + 1, u32::MAX]);
            bytes[header::TOTAL.range()].copy_from_slice(&total.to_le_bytes());
        }
        self.sheet.extend_from_slice(&bytes);
        let count = self.records();
        let more = count.wrapping_add(1);
        let fewer = count.wrapping_sub(1);
        let count = numbers.pick(&[count, more, more, fewer, 0, u32::MAX, count | 1 << 31]);
        self.set_records(count);
        self.note(format!("{length} bytes at the end, and the count {count}"));
    }

    /// The semantics cut off with the total length, or the flag turned.
    fn semantics_dropped(&mut self, numbers: &mut Numbers) {
        let Some(record) = self.a_record(numbers) else {
            return self.end(numbers);
        };
        if self.sheet.len() < record.end {
            return;
        }
        if numbers.chance(1, 2) {
            self.sheet.drain(record.metric_end..record.end);
            let total = (record.metric_end - record.at) as u32;
            self.put(header::TOTAL.at(record.at), &total.to_le_bytes());
            self.note(format!("semantics of the record at {} cut off", record.at));
        } else {
            self.sheet[header::BYTE21.at(record.at).place] ^= 2;
            self.note(format!("semantics flag of the record at {} turned", record.at));
        }
    }

    fn a_record(&self, numbers: &mut Numbers) -> Option<Bounds> {
        let records = &self.places.records;
        (!records.is_empty()).then(|| numbers.pick(records))
    }

    fn records(&self) -> u32 {
        u32_in(&self.sheet, descriptor::COUNT)
    }

    fn set_records(&mut self, count: u32) {
        self.put(descriptor::COUNT, &count.to_le_bytes());
    }

    fn add(&mut self, field: Field, by: u32) {
        let number = u32_in(&self.sheet, field).wrapping_add(by);
        self.put(field, &number.to_le_bytes());
    }

    /// Stores the bytes of a field, if the sheet is long enough to have it.
    fn put(&mut self, field: Field, bytes: &[u8]) {
        if let Some(stored) = self.sheet.get_mut(field.range()) {
            stored.copy_from_slice(bytes);
        }
    }
}

/// The kinds of fields to choose among; those that may hold anything are left
/// to the choice among all fields.
const KINDS: [Kind; 24] = [
    Kind::Identifier,
    Kind::FixedLength,
    Kind::Edition,
    Kind::Sum,
    Kind::Text,
    Kind::Flags,
    Kind::Epsg,
    Kind::Offset,
    Kind::RecordCount,
    Kind::Reserved,
    Kind::Total,
    Kind::Metric,
    Kind::Reference,
    Kind::Reference,
    Kind::Word,
    Kind::Subobjects,
    Kind::Points,
    Kind::PartHead,
    Kind::PartTextLength,
    Kind::PartTextEnd,
    Kind::ItemType,
    Kind::ItemScale,
    Kind::LongLength,
    Kind::ValueEnd,
];

const TYPES: [u8; 16] = [0, 1, 2, 3, 4, 5, 7, 8, 9, 16, 125, 126, 127, 128, 129, 255];

/// A number of one to four bytes: one more or less, one bit, or an edge.
fn alter_number(numbers: &mut Numbers, field: &mut [u8]) {
    let mut wide = [0; 4];
    wide[..field.len()].copy_from_slice(field);
    let old = u32::from_le_bytes(wide);
    let bits = 8 * field.len() as u64;
    let new = match numbers.below(8) {
        0 | 1 => old.wrapping_add(1),
        2 | 3 => old.wrapping_sub(1),
        4 => old ^ 1 << numbers.below(bits),
        5 => numbers.pick(&[0, u32::MAX, 1 << (bits - 1)]),
        6 => old.wrapping_add(numbers.below(64) as u32),
        _ => numbers.any() as u32,
    };
    field.copy_from_slice(&new.to_le_bytes()[..field.len()]);
}

/// A text field that has no zero at all, be its text kept or not; or has another
/// byte at its end or anywhere, or a zero, which may make the end of a text old
/// letters, or take old letters away.
fn alter_text(numbers: &mut Numbers, field: &mut [u8]) {
    let last = field.len() - 1;
    let (any, how) = (numbers.index(field.len()), numbers.below(5));
    let mut letter = || numbers.between(1, 255) as u8;
    match how {
        0 => field.fill(letter()),
        1 => field.iter_mut().filter(|byte| **byte == 0).for_each(|zero| *zero = letter()),
        2 => field[last] = letter(),
        3 => field[any] = 0,
        _ => field[any] = letter(),
    }
}
