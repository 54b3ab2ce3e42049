//! The three reference bytes of a record, bytes 20 to 22, as one number with byte 20 lowest.
use crate::{Coding, ElementKind};
use std::fmt;
use sxf_sys::{dimensions, reference};

/// The reference bytes.
///
/// ```
/// use sxf::reference::{Localisation, Reference};
/// let reference = Reference::new(Localisation::Areal).with(Reference::FLOATING | Reference::ELEMENT_SIZE);
/// assert_eq!(reference.planar().width(), 8);
/// assert!(!reference.three_dimensions());
/// ```
#[derive(Clone, Copy, Debug, Default, PartialEq, Eq, Hash)]
pub struct Reference(pub u32);

/// What a record stands for on the map.
#[derive(Clone, Copy, Debug, PartialEq, Eq, Hash)]
pub enum Localisation {
    /// 0: a line.
    Linear,
    /// 1: an area.
    Areal,
    /// 2: a point.
    Point,
    /// 3: a label.
    Label,
    /// 4: a vector, a point with a direction.
    Vector,
    /// 5: a label template.
    LabelTemplate,
}

impl Localisation {
    /// The localisation of a number; none for one over 5.
    pub(crate) fn of(number: u32) -> Option<Localisation> {
        match number {
            0 => Some(Localisation::Linear),
            1 => Some(Localisation::Areal),
            2 => Some(Localisation::Point),
            3 => Some(Localisation::Label),
            4 => Some(Localisation::Vector),
            5 => Some(Localisation::LabelTemplate),
            _ => None,
        }
    }

    fn number(self) -> u32 {
        match self {
            Localisation::Linear => 0,
            Localisation::Areal => 1,
            Localisation::Point => 2,
            Localisation::Label => 3,
            Localisation::Vector => 4,
            Localisation::LabelTemplate => 5,
        }
    }
}

impl fmt::Display for Localisation {
    fn fmt(&self, f: &mut fmt::Formatter<'_>) -> fmt::Result {
        f.write_str(match self {
            Localisation::Linear => "linear",
            Localisation::Areal => "areal",
            Localisation::Point => "point",
            Localisation::Label => "label",
            Localisation::Vector => "vector",
            Localisation::LabelTemplate => "label template",
        })
    }
}

macro_rules! bits {
    ($($constant:ident $asked:ident $words:literal)*) => {
        impl Reference {
            $(
                #[doc = concat!("The bit of: ", $words, ".")]
                pub const $constant: u32 = reference::$constant as u32;

                #[doc = concat!("Whether it has: ", $words, ".")]
                pub fn $asked(self) -> bool {
                    self.has(Reference::$constant)
                }
            )*

            /// The words for the bits that are set, by rising bit. Localisation and spline are not among them.
            pub fn words(self) -> impl Iterator<Item = &'static str> {
                [$((Reference::$constant, $words)),*].into_iter().filter(move |(bit, _)| self.has(*bit)).map(|(_, words)| words)
            }
        }
    };
}

bits! {
    MULTIPOLYGON multipolygon "multipolygon"
    COMPRESSED_GRAPHICS compressed_graphics "compressed graphics"
    SEMANTICS semantics "semantics"
    ELEMENT_SIZE element_size "large elements"
    BINDING_VECTOR binding_vector "binding vector"
    UNICODE unicode "Unicode"
    ABOVE_ALL above_all "above all"
    BELOW_ALL below_all "below all"
    VERTICAL_ALIGNMENT vertical_alignment "vertical alignment"
    THREE_DIMENSIONS three_dimensions "three dimensions"
    FLOATING floating "floating"
    TEXT_IN_METRIC text_in_metric "text in metric"
    GRAPHICS graphics "graphics"
    SCALABLE scalable "scalable"
}

impl Reference {
    /// A localisation and no bit: two dimensions, integers of two bytes.
    pub fn new(localisation: Localisation) -> Reference {
        Reference(localisation.number())
    }

    /// The same with these bits set besides.
    pub fn with(self, bits: u32) -> Reference {
        Reference(self.0 | bits)
    }

    fn has(self, bits: u32) -> bool {
        self.0 & bits != 0
    }

    /// Bits 0-3 of byte 20 as a number; over 5 is refused in a sheet.
    pub fn localisation_number(self) -> u32 {
        self.0 & reference::LOCALISATION as u32
    }

    /// The localisation; none for a number over 5.
    pub fn localisation(self) -> Option<Localisation> {
        Localisation::of(self.localisation_number())
    }

    /// Bits 6-7 of byte 22.
    pub fn spline(self) -> u32 {
        (self.0 & reference::SPLINE as u32) >> reference::SPLINE.trailing_zeros()
    }

    /// The coding of the record's labels where it is the record's own, UTF-16 with the Unicode bit; else it is the sheet's.
    pub fn label_coding(self) -> Option<Coding> {
        self.unicode().then_some(Coding::Utf16)
    }

    /// How the elements of a dimension are stored, as the library answers it. A number over three bytes is none of a sheet's, and is refused
    /// when it is written; its low three bytes are asked for.
    fn kind(self, dimension: u32) -> Option<ElementKind> {
        ElementKind::of_dimension(self.0 & 0x00FF_FFFF, dimension)
    }

    /// How a planar element is stored.
    pub fn planar(self) -> ElementKind {
        // A planar element has an answer for every three bytes; that it had none would go against the library's contract.
        self.kind(dimensions::NORTH).unwrap_or(ElementKind::Short)
    }

    /// How a height is stored, in three dimensions: 8 bytes where planar elements are 8, else 4.
    pub fn height(self) -> Option<ElementKind> {
        self.kind(dimensions::HEIGHT)
    }

    /// How many elements a point has: 2 or 3.
    pub fn elements(self) -> usize {
        2 + usize::from(self.height().is_some())
    }

    /// How many bytes a point has: twice the planar element plus the height, which is nothing in two dimensions.
    pub fn point_size(self) -> usize {
        2 * self.planar().width() + self.height().map_or(0, ElementKind::width)
    }
}

#[cfg(test)]
mod tests {
    use super::*;

    #[test]
    fn a_point_has_the_documents_sizes() {
        let sizes = |more| {
            [0, Reference::FLOATING, Reference::ELEMENT_SIZE, Reference::FLOATING | Reference::ELEMENT_SIZE]
                .map(|bits| Reference(bits | more).point_size())
        };
        assert_eq!(sizes(0), [4, 8, 8, 16]);
        assert_eq!(sizes(Reference::THREE_DIMENSIONS), [8, 12, 12, 24]);
    }

    /// Every combination of the bits of bytes 21 and 22: only three of them say how elements are stored, whatever stands over byte 22.
    #[test]
    fn three_bits_say_how_elements_are_stored() {
        for bits in 0..=0xFFFF_u32 {
            let reference = Reference(bits << 8 | bits << 24 | 2);
            let large = matches!(reference.planar(), ElementKind::Long | ElementKind::Double);
            let floating = matches!(reference.planar(), ElementKind::Single | ElementKind::Double);
            assert_eq!((large, floating), (reference.element_size(), reference.floating()), "{bits:#x}");
            assert_eq!(reference.height().is_some(), reference.three_dimensions(), "{bits:#x}");
            assert_eq!(reference.height() == Some(ElementKind::Double), reference.three_dimensions() && large && floating);
            assert_eq!(reference.elements(), 2 + usize::from(reference.three_dimensions()));
        }
    }

    #[test]
    fn words_are_by_rising_bit() {
        let words: Vec<_> = Reference(0x40_3111).words().collect();
        assert_eq!(words, ["multipolygon", "compressed graphics", "Unicode", "above all"]);
        assert_eq!(Reference(0x40_3111).spline(), 1);
    }
}
