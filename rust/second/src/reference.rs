//! The reference bytes of a record, +20 to +22 ("Record").

use crate::refusal::{require, Refusal};
use crate::shape::Shape;
use crate::years::{self, Setting};

/// Bytes 20, 21 and 22 of a record.
#[derive(Clone, Copy)]
pub(crate) struct Reference(pub(crate) [u8; 3]);

impl Reference {
    /// The checks of the three bytes, byte by byte, each at its place: in a
    /// sheet the byte's own, in a table always the reference number's index.
    pub(crate) fn check(self, setting: Setting, places: [u64; 3]) -> Result<(), Refusal> {
        self.check_byte_20(setting, places[0])?;
        self.check_byte_21(setting, places[1])?;
        self.check_byte_22(setting, places[2])
    }

    fn check_byte_20(self, setting: Setting, place: u64) -> Result<(), Refusal> {
        let byte = self.0[0];
        require(byte & 0x0F <= 5 && byte & 0xE0 == 0, Refusal::RESERVED, place)?;
        setting.admit(byte & 0x10 != 0, years::MULTIPOLYGON, place)
    }

    fn check_byte_21(self, setting: Setting, place: u64) -> Result<(), Refusal> {
        let byte = self.0[1];
        // Lowest bit first; bits 1 and 2 have no year.
        setting.admit(byte & 0x01 != 0, years::COMPRESSED_GRAPHICS, place)?;
        setting.admit(byte & 0x08 != 0, years::BINDING_VECTOR, place)?;
        setting.admit(byte & 0x10 != 0, years::UNICODE, place)?;
        setting.admit(byte & 0x20 != 0, years::ABOVE_ALL, place)?;
        setting.admit(byte & 0x40 != 0, years::BELOW_ALL, place)?;
        setting.admit(byte & 0x80 != 0, years::VERTICAL_ALIGNMENT, place)?;
        let binding_vector = byte & 0x08 != 0;
        require(!binding_vector, Refusal::NOT_CARRIED, place)
    }

    fn check_byte_22(self, setting: Setting, place: u64) -> Result<(), Refusal> {
        let byte = self.0[2];
        let text_allowed = matches!(self.localisation(), 3 | 5);
        require(byte & 0x01 == 0 && (text_allowed || !self.has_text()), Refusal::RESERVED, place)?;
        setting.admit(byte & 0xC0 != 0, years::SPLINE, place)?;
        let graphics = byte & 0x10 != 0;
        require(!graphics, Refusal::NOT_CARRIED, place)
    }

    fn localisation(self) -> u8 {
        self.0[0] & 0x0F
    }

    /// Whether bytes of semantics follow the metric.
    pub(crate) fn has_semantics(self) -> bool {
        self.0[1] & 0x02 != 0
    }

    /// Whether each part ends with a text.
    pub(crate) fn has_text(self) -> bool {
        self.0[2] & 0x08 != 0
    }

    /// Whether the record's planar elements are floating numbers.
    pub(crate) fn is_floating(self) -> bool {
        self.0[2] & 0x04 != 0
    }

    /// How the record's points are stored.
    pub(crate) fn shape(self) -> Shape {
        let large = self.0[1] & 0x04 != 0;
        let three_dimensions = self.0[2] & 0x02 != 0;
        Shape::new(large, self.is_floating(), three_dimensions)
    }

    /// The three bytes as one number, byte 20 lowest.
    pub(crate) fn number(self) -> u64 {
        let [low, middle, high] = self.0;
        u64::from(u32::from_le_bytes([low, middle, high, 0]))
    }
}
