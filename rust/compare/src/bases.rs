//! A dozen and more sheets that GDAL can express, each of so many records of one kind. The numbers in them look random and are the same
//! in every run.

use crate::random::Random;
use crate::sheets::{Record, Sheet};
use sxf::ElementKind;

pub struct Base {
    pub name: &'static str,
    pub sheet: Sheet,
}

/// Codes of the classifier that GDAL brings (two of water, one of the frame) and one that is in none.
const CODES: [u32; 4] = [31_410_000, 31_120_000, 91_000_000, 11_200_000];

/// "Москва", "Река Ока" and "Gas 40" in the Windows coding.
const TEXTS: [&[u8]; 3] = [b"\xCC\xEE\xF1\xEA\xE2\xE0", b"\xD0\xE5\xEA\xE0 \xCE\xEA\xE0", b"Gas 40"];

struct Maker {
    random: Random,
    element: ElementKind,
    heights: bool,
}

impl Maker {
    fn point(&mut self) -> [f64; 3] {
        let mut draw = |from: f64, size: f64| from + size * self.random.unit();
        let [x, y] = match self.element {
            ElementKind::Short => [draw(0.0, 32_767.0).floor(), draw(0.0, 32_767.0).floor()],
            ElementKind::Long => [draw(-9e5, 2e6).floor(), draw(-9e5, 2e6).floor()],
            ElementKind::Single => [draw(-9e5, 2e6), draw(-9e5, 2e6)],
            ElementKind::Double => [draw(6e6, 5e3), draw(7.5e6, 5e3)],
        };
        [x, y, if self.heights { draw(-100.0, 900.0) } else { 0.0 }]
    }

    fn points(&mut self, count: usize) -> Vec<[f64; 3]> {
        (0..count).map(|_| self.point()).collect()
    }

    /// A ring: its last point is its first.
    fn ring(&mut self) -> Vec<[f64; 3]> {
        let count = 3 + self.random.below(6);
        let mut ring = self.points(count);
        ring.push(ring[0]);
        ring
    }

    /// A record of this localisation with up to so many parts.
    fn record(&mut self, localisation: u8, parts: usize) -> Record {
        let mut record: Option<Record> = None;
        for _ in 0..1 + self.random.below(parts) {
            let count = match localisation {
                2 => 1,
                _ => 2 + self.random.below(9),
            };
            let points = if localisation == 1 { self.ring() } else { self.points(count) };
            record = Some(match record {
                None => Record::new(localisation, &points),
                Some(record) => record.part(&points),
            });
        }
        let mut record = record.expect("a first part").element(self.element, self.heights);
        record.code = CODES[self.random.below(4)];
        record
    }

    fn label(&mut self, parts: usize) -> Record {
        let record = self.record(3, parts);
        let texts: Vec<&[u8]> = record.parts.iter().map(|_| TEXTS[self.random.below(3)]).collect();
        record.texts(&texts)
    }

    /// A point with one item of each number type and one of each one-byte text type, their codes apart.
    fn with_items(&mut self) -> Record {
        let scale = |random: &mut Random| random.below(7) as i8 - 3;
        let closed = |random: &mut Random| [TEXTS[random.below(3)], b"\0"].concat();
        let record = self.record(2, 1);
        let random = &mut self.random;
        let ansi = closed(random);
        record
            .item(1, 1, scale(random), &[random.below(128) as u8])
            .item(2, 2, scale(random), &(random.bits() as i16).to_le_bytes())
            .item(4, 4, scale(random), &(random.bits() as i32).to_le_bytes())
            .item(8, 8, 0, &(1e4 * random.unit()).to_le_bytes())
            .item(126, 126, ansi.len() as i8 - 1, &ansi)
            .item(100, 0, 6, b"\x8C\xAE\xE1\xAA\xA2\xA0\0")
    }
}

/// A sheet of `count` records made by `record`.
fn base(name: &'static str, element: ElementKind, heights: bool, count: usize, record: impl Fn(&mut Maker) -> Record) -> Base {
    let mut maker = Maker { random: Random(name.len() as u64), element, heights };
    let records = (0..count).map(|_| record(&mut maker)).collect();
    Base { name, sheet: Sheet::real(records) }
}

/// Any of the localisations but vector and template, with up to three parts.
fn mixed(maker: &mut Maker) -> Record {
    match maker.random.below(5) {
        0 => maker.record(0, 3),
        1 => maker.record(1, 3),
        2 => maker.record(2, 1),
        3 => maker.label(1),
        _ => maker.with_items(),
    }
}

pub fn all(count: usize) -> Vec<Base> {
    use ElementKind::{Double, Long, Short, Single};
    let device = |mut base: Base| {
        base.sheet = Sheet::device(base.sheet.records);
        base
    };
    vec![
        base("points", Double, false, count, |m| m.record(2, 1)),
        base("lines of one to three parts", Double, false, count, |m| m.record(0, 3)),
        base("polygons with up to three holes", Double, false, count, |m| m.record(1, 4)),
        base("labels of one line", Double, false, count, |m| m.label(1)),
        base("labels of one to three lines", Double, false, count, |m| m.label(3)),
        base("points with six items each", Double, false, count, |m| m.with_items()),
        base("all of these, with heights", Double, true, count, mixed),
        base("all, 4-byte floating", Single, false, count, mixed),
        base("all, 4-byte floating, with heights", Single, true, count, mixed),
        base("all, 4-byte integers", Long, false, count, mixed),
        base("all, 4-byte integers, with heights", Long, true, count, mixed),
        base("all, 2-byte integers under 32768", Short, false, count, mixed),
        base("all, 2-byte integers, with heights", Short, true, count, mixed),
        device(base("all, device points with a frame", Long, false, count, mixed)),
    ]
}

/// Lines of few points under the mark, which they do not need.
pub fn marked(count: usize) -> Base {
    base("lines of one to three parts, under the mark", ElementKind::Double, false, count, |m| m.record(0, 3).mark())
}

/// A line of more points than two bytes count.
pub fn long() -> Base {
    base("a line of 70000 points, with heights", ElementKind::Double, true, 1, |m| {
        Record::new(0, &m.points(70_000)).element(ElementKind::Double, true)
    })
}
