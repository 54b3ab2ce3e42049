//! Sheets of records of one kind.
use crate::random::Random;
use sxf::fields::{descriptor, header, passport, Field, START};
use sxf::Reference;

/// How long a sheet is where nothing else is said: 16 MiB, the limit before 02, request 7. The targets of most figures are for such sheets.
pub const LENGTH: usize = 16 << 20;

/// A kind of points.
pub struct Kind {
    pub name: &'static str,
    reference: Reference,
}

const DOUBLES: u32 = Reference::FLOATING | Reference::ELEMENT_SIZE;

pub const KINDS: [Kind; 4] = [
    Kind { name: "8 bytes, two dimensions", reference: Reference(DOUBLES) },
    Kind { name: "8 bytes, three dimensions", reference: Reference(DOUBLES | Reference::THREE_DIMENSIONS) },
    Kind { name: "4 bytes, two dimensions", reference: Reference(Reference::ELEMENT_SIZE) },
    Kind { name: "2 bytes, two dimensions", reference: Reference(0) },
];

/// Stores a number in a field, which has at most four bytes.
fn put(bytes: &mut [u8], field: Field, number: u32) {
    bytes[field.range()].copy_from_slice(&number.to_le_bytes()[..field.width]);
}

fn head() -> Vec<u8> {
    let mut sheet = vec![0; START];
    put(&mut sheet, passport::IDENTIFIER, passport::IDENTIFIER_IS);
    put(&mut sheet, passport::OWN_LENGTH, passport::OWN_LENGTH_IS);
    put(&mut sheet, passport::EDITION, passport::EDITION_IS);
    put(&mut sheet, passport::FLAGS, 3);
    put(&mut sheet, descriptor::IDENTIFIER, descriptor::IDENTIFIER_IS);
    put(&mut sheet, descriptor::OWN_LENGTH, descriptor::OWN_LENGTH_IS);
    put(&mut sheet, descriptor::FLAGS, 3);
    sheet
}

/// How many bytes a record of so many points has.
pub fn total(kind: &Kind, points: usize) -> usize {
    header::SIZE + points * kind.reference.point_size()
}

/// As many records of so many points, all of code 0, as 16 MiB have room for. The elements are pseudo-random bytes.
pub fn make(kind: &Kind, points: usize) -> Vec<u8> {
    make_coded(kind, points, || 0)
}

/// The same, with a code for each record in turn.
pub fn make_coded(kind: &Kind, points: usize, code: impl FnMut() -> u32) -> Vec<u8> {
    make_within(LENGTH, kind, points, code)
}

/// The same, in a sheet of at most so many bytes.
pub fn make_within(length: usize, kind: &Kind, points: usize, mut code: impl FnMut() -> u32) -> Vec<u8> {
    let total = total(kind, points);
    let (metric, records) = (total - header::SIZE, (length - START) / total);
    let mut sheet = head();
    put(&mut sheet, descriptor::COUNT, records as u32);
    let mut random = Random(1);
    for _ in 0..records {
        let mut bytes = [0; header::SIZE];
        put(&mut bytes, header::IDENTIFIER, header::IDENTIFIER_IS);
        put(&mut bytes, header::TOTAL, total as u32);
        put(&mut bytes, header::METRIC, metric as u32);
        put(&mut bytes, header::CODE, code());
        put(&mut bytes, header::REFERENCE, kind.reference.0);
        put(&mut bytes, header::POINTS, points as u32);
        sheet.extend_from_slice(&bytes);
        sheet.extend((0..metric).map(|_| random.byte()));
    }
    // "The sum may now pass 32 bits, and only its low 32 are kept" (02, request 7).
    let sum: u64 = sheet.iter().map(|&byte| u64::from(byte)).sum();
    put(&mut sheet, passport::SUM, sum as u32);
    sheet
}

/// Whether the last element unfolded has the sheet's last bytes.
pub fn last_agrees(kind: &Kind, sheet: &[u8], elements: &[u64]) -> bool {
    let width = kind.reference.planar().width();
    elements.last().is_some_and(|last| sheet.ends_with(&last.to_le_bytes()[..width]))
}
