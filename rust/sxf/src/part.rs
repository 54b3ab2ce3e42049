//! Parts of a record: the object itself, then its subobjects.
use crate::coordinates::{Coordinate, Elements, Height};
use crate::table::Row;
use crate::{Coding, Reference, Text};
use sxf_sys::row::{self, PART_WIDTH};
use sxf_sys::Rest;

/// A part: its points, and its text where the record has text in its metric.
#[derive(Clone, Copy, Debug)]
pub struct Part<'a> {
    reference: Reference,
    rest: &'a Rest,
    elements: &'a [u64],
    text: Option<Text<'a>>,
}

impl<'a> Part<'a> {
    /// The points, with typed coordinates: what each element stands for and its unit are the library's answer, from the sheet.
    ///
    /// ```
    /// use sxf::{HeightUnit, Number, Setting, Sheet, Unit};
    /// # let bytes = include_bytes!("../../../samples/heights.sxf");
    /// let sheet = Sheet::read(bytes, Setting::Y2017)?;
    /// for record in sheet.records() {
    ///     for point in record.parts().flat_map(|part| part.points()) {
    ///         assert_eq!((point.x.unit(), point.y.unit()), (Unit::DevicePoints, Unit::DevicePoints));
    ///         assert_eq!(point.height.map(|height| height.unit()), Some(HeightUnit::Metres));
    ///     }
    /// }
    /// # Ok::<(), sxf::Refusal>(())
    /// ```
    pub fn points(&self) -> Points<'a> {
        let told = Elements::of(self.rest, self.reference.0);
        Points { told, of_a_point: self.reference.elements(), elements: self.elements }
    }

    /// The stored bits of all its elements, two or three to a point.
    pub fn elements(&self) -> &'a [u64] {
        self.elements
    }

    /// Its text, padding and all, without the closing zero; none without the text bit. The sheet's byte 97 says its coding, or the record's
    /// Unicode bit.
    ///
    /// ```
    /// use sxf::{Setting, Sheet};
    /// # let bytes = include_bytes!("../../../samples/cyrillic-koi8.sxf");
    /// let sheet = Sheet::read(bytes, Setting::Y2017)?;
    /// let record = sheet.record(0)?;
    /// let label = record.parts().next().and_then(|part| part.text()).expect("a label");
    /// assert_eq!(label.coding, sxf::Coding::Koi8);
    /// assert_eq!(label.string()?, "Газопровод");
    /// # Ok::<(), Box<dyn std::error::Error>>(())
    /// ```
    pub fn text(&self) -> Option<Text<'a>> {
        self.text
    }
}

/// A point: X (upwards), Y (to the right), and in three dimensions a height.
#[derive(Clone, Copy, Debug, PartialEq)]
pub struct Point {
    /// X, from below upwards.
    pub x: Coordinate,
    /// Y, from left to right.
    pub y: Coordinate,
    /// The height, in three dimensions.
    pub height: Option<Height>,
}

/// The points of a part.
#[derive(Clone, Copy, Debug)]
pub struct Points<'a> {
    told: Elements<'a>,
    /// How many elements a point has.
    of_a_point: usize,
    elements: &'a [u64],
}

impl Points<'_> {
    fn point(&self, elements: &[u64]) -> Option<Point> {
        let (&[x, y], height) = elements.split_first_chunk()?;
        let height = match height {
            [] => None,
            &[bits, ..] => Some(self.told.height(bits)?),
        };
        Some(Point { x: self.told.north(x)?, y: self.told.east(y)?, height })
    }
}

impl Iterator for Points<'_> {
    type Item = Point;

    fn next(&mut self) -> Option<Point> {
        let (point, rest) = self.elements.split_at_checked(self.of_a_point)?;
        let point = self.point(point);
        // Elements that are no point end the iteration for good.
        self.elements = if point.is_some() { rest } else { &[] };
        point
    }

    fn size_hint(&self) -> (usize, Option<usize>) {
        let points = self.elements.len() / self.of_a_point;
        (points, Some(points))
    }
}

impl ExactSizeIterator for Points<'_> {}

/// The parts of a record.
#[derive(Clone, Copy, Debug)]
pub struct Parts<'a> {
    reference: Reference,
    rest: &'a Rest,
    coding: Coding,
    numbers: &'a [[u64; PART_WIDTH]],
    elements: &'a [u64],
    texts: &'a [u8],
}

impl<'a> Parts<'a> {
    pub(crate) fn of(row: &Row<'a>, rest: &'a Rest, labels: Coding) -> Parts<'a> {
        let reference = row.reference();
        let coding = reference.label_coding().unwrap_or(labels);
        Parts { reference, rest, coding, numbers: row.parts, elements: row.elements, texts: row.texts }
    }
}

impl<'a> Iterator for Parts<'a> {
    type Item = Part<'a>;

    fn next(&mut self) -> Option<Part<'a>> {
        let (part, numbers) = self.numbers.split_first()?;
        let row::Part { points, text_length } = row::Part::of(part);
        let elements = usize::try_from(points).ok()?.checked_mul(self.reference.elements())?;
        let (elements, elements_rest) = self.elements.split_at_checked(elements)?;
        let (text, texts) = self.texts.split_at_checked(usize::try_from(text_length).ok()?)?;
        (self.numbers, self.elements, self.texts) = (numbers, elements_rest, texts);
        let text = self.reference.text_in_metric().then_some(Text { coding: self.coding, bytes: text });
        Some(Part { reference: self.reference, rest: self.rest, elements, text })
    }
}
