//! The points of a part in the JSON lines: a list of points, each a list of its two or three elements.
use crate::element::Element;
use serde::de::{Deserialize, DeserializeSeed, Deserializer, Error, SeqAccess, Visitor};
use serde::{Serialize, Serializer};
use std::fmt;
use sxf::{ElementKind, Reference};

/// The points of a sheet's part, lent as they are stored: a part may be nearly as long as the sheet, so its elements are not held once more to be
/// printed.
pub struct Stored<'a> {
    kinds: Vec<ElementKind>,
    elements: &'a [u64],
}

impl<'a> Stored<'a> {
    pub fn of(reference: Reference, elements: &'a [u64]) -> Stored<'a> {
        Stored { kinds: kinds(reference), elements }
    }
}

impl Serialize for Stored<'_> {
    fn serialize<S: Serializer>(&self, serializer: S) -> Result<S::Ok, S::Error> {
        serializer.collect_seq(self.elements.chunks(self.kinds.len()).map(|elements| StoredPoint { kinds: &self.kinds, elements }))
    }
}

struct StoredPoint<'a> {
    kinds: &'a [ElementKind],
    elements: &'a [u64],
}

impl Serialize for StoredPoint<'_> {
    fn serialize<S: Serializer>(&self, serializer: S) -> Result<S::Ok, S::Error> {
        serializer.collect_seq(self.kinds.iter().zip(self.elements).map(|(&kind, &bits)| Element::of(kind, bits)))
    }
}

/// The points that a line has: the elements of all of them, one after another.
#[derive(Default)]
pub struct Points {
    elements: Vec<Element>,
    /// How many elements a point has; where a line has no point it is 0.
    of_a_point: usize,
}

/// How the elements of a record's points are stored: X, Y, and in three dimensions the height.
fn kinds(reference: Reference) -> Vec<ElementKind> {
    let planar = reference.planar();
    [planar, planar].into_iter().chain(reference.height()).collect()
}

impl Points {
    pub fn len(&self) -> usize {
        self.elements.len() / self.of_a_point.max(1)
    }

    /// Adds the bits of all elements, as a record of this reference number stores them, or says what keeps it from that.
    pub fn add_bits(&self, reference: Reference, to: &mut Vec<u64>) -> Result<(), String> {
        let kinds = kinds(reference);
        if self.len() != 0 && self.of_a_point != kinds.len() {
            return Err(format!("points of {} numbers, where the record's have {}", self.of_a_point, kinds.len()));
        }
        for (index, (&element, &kind)) in self.elements.iter().zip(kinds.iter().cycle()).enumerate() {
            to.push(bits_of(index / kinds.len(), element, kind)?);
        }
        Ok(())
    }
}

fn bits_of(point: usize, element: Element, kind: ElementKind) -> Result<u64, String> {
    element.bits(kind).ok_or_else(|| format!("point {point}: {element} is none of the {kind}{}", instead(element, kind)))
}

/// What may stand instead of an element that is none of this kind.
fn instead(element: Element, kind: ElementKind) -> String {
    match (element, kind) {
        (_, ElementKind::Short) => format!(", {} to {}", u16::MIN, u16::MAX),
        (_, ElementKind::Long) => format!(", {} to {}", i32::MIN, i32::MAX),
        (Element::Bits(..), _) => format!("; their bits have {} digits", 2 * kind.width()),
        (Element::Number(number), _) => format!("; the nearest is {:?}", (number as f32).clamp(f32::MIN, f32::MAX)),
    }
}

impl<'de> Deserialize<'de> for Points {
    fn deserialize<D: Deserializer<'de>>(deserializer: D) -> Result<Self, D::Error> {
        deserializer.deserialize_seq(ListOfPoints)
    }
}

struct ListOfPoints;

impl<'de> Visitor<'de> for ListOfPoints {
    type Value = Points;

    fn expecting(&self, f: &mut fmt::Formatter<'_>) -> fmt::Result {
        f.write_str("a list of points")
    }

    fn visit_seq<A: SeqAccess<'de>>(self, mut list: A) -> Result<Points, A::Error> {
        let mut points = Points::default();
        while let Some(of_this) = list.next_element_seed(Point(&mut points.elements))? {
            if points.of_a_point != 0 && points.of_a_point != of_this {
                return Err(A::Error::custom(format!("a point of {of_this} numbers after points of {}", points.of_a_point)));
            }
            points.of_a_point = of_this;
        }
        Ok(points)
    }
}

/// One point, whose elements are added to those before it. How many there are is answered.
struct Point<'a>(&'a mut Vec<Element>);

impl<'de> DeserializeSeed<'de> for Point<'_> {
    type Value = usize;

    fn deserialize<D: Deserializer<'de>>(self, deserializer: D) -> Result<usize, D::Error> {
        deserializer.deserialize_seq(self)
    }
}

impl<'de> Visitor<'de> for Point<'_> {
    type Value = usize;

    fn expecting(&self, f: &mut fmt::Formatter<'_>) -> fmt::Result {
        f.write_str("a point, a list of two or three numbers")
    }

    fn visit_seq<A: SeqAccess<'de>>(self, mut list: A) -> Result<usize, A::Error> {
        let before = self.0.len();
        while let Some(element) = list.next_element()? {
            self.0.push(element);
        }
        match self.0.len() - before {
            of_this @ 2..=3 => Ok(of_this),
            of_this => Err(A::Error::invalid_length(of_this, &self)),
        }
    }
}
