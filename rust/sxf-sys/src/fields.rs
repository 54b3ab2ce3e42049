//! Where everything stands: each place, width and fixed value of document 01, once. A name with `_IS` is the one value that its field may
//! hold.
use std::ops::Range;

pub mod descriptor;
pub mod header;
pub mod item;
pub mod passport;
pub mod subobject;

/// "City plans have outgrown the limit. Raise it to 67,108,864 bytes." (02, request 7).
pub const LIMIT: usize = 67_108_864;

/// Where the records start: after passport and descriptor.
pub const START: usize = descriptor::RESERVED.after();

/// The rest of the passport, which is carried.
pub type Rest = [u8; passport::REST.width];

/// The descriptor's four bytes at 444, which are carried.
pub type Carried = [u8; descriptor::CARRIED.width];

/// A field: where it stands, counted from the start of its piece, and how many bytes it has.
#[derive(Clone, Copy, Debug, PartialEq, Eq)]
pub struct Field {
    /// Its first byte.
    pub place: usize,
    /// How many bytes it has.
    pub width: usize,
}

impl Field {
    /// A field at a place, so many bytes wide.
    pub const fn new(place: usize, width: usize) -> Field {
        Field { place, width }
    }

    /// The first place after it.
    pub const fn after(self) -> usize {
        self.place + self.width
    }

    /// Its bytes' places.
    pub const fn range(self) -> Range<usize> {
        self.place..self.after()
    }

    /// The same field, counted from the start of another that it lies in.
    pub const fn within(self, whole: Field) -> Field {
        Field::new(self.place - whole.place, self.width)
    }

    /// The same field of a piece that starts at a place.
    pub const fn at(self, start: usize) -> Field {
        Field::new(start + self.place, self.width)
    }
}

#[cfg(test)]
mod tests {
    use super::*;

    /// Fields that follow one another leave nothing between.
    fn follow(fields: &[Field]) {
        for pair in fields.windows(2) {
            assert_eq!(pair[0].after(), pair[1].place, "{pair:?}");
        }
    }

    #[test]
    fn passport_and_descriptor_have_no_gap() {
        use passport::{DATE, DESIGNATION, EDITION, IDENTIFIER, OWN_LENGTH, REST, SCALE, SUM, TITLE};
        follow(&[IDENTIFIER, OWN_LENGTH, EDITION, SUM, DATE, DESIGNATION, SCALE, TITLE, REST, descriptor::IDENTIFIER]);
        follow(&[passport::FLAGS, passport::LABELS, passport::ACCURACY, passport::SORTING, passport::EPSG, passport::CORNERS]);
        follow(&[passport::NORTH, passport::EAST, descriptor::IDENTIFIER, descriptor::OWN_LENGTH]);
        follow(&[descriptor::OWN_LENGTH, descriptor::DESIGNATION, descriptor::COUNT, descriptor::CARRIED, descriptor::RESERVED]);
        follow(&[descriptor::FLAGS, descriptor::LABELS, descriptor::SECRECY, descriptor::KEEPING, descriptor::RESERVED]);
        assert_eq!(passport::REST.after(), passport::OWN_LENGTH_IS as usize);
        assert_eq!(START, (passport::OWN_LENGTH_IS + descriptor::OWN_LENGTH_IS) as usize);
    }

    #[test]
    fn a_header_has_no_gap() {
        use header::{
            BYTE20, BYTE21, BYTE22, CODE, GENERALISATION, GROUP, IDENTIFIER, IN_GROUP, METRIC, POINTS, SUBOBJECTS, TOTAL, WORD,
        };
        follow(&[
            IDENTIFIER,
            TOTAL,
            METRIC,
            CODE,
            IN_GROUP,
            GROUP,
            BYTE20,
            BYTE21,
            BYTE22,
            GENERALISATION,
            WORD,
            SUBOBJECTS,
            POINTS,
        ]);
        assert_eq!(POINTS.after(), header::SIZE);
        assert_eq!(
            (subobject::N2.after(), item::SCALE.after(), item::LONG_LENGTH.place),
            (subobject::SIZE, item::SIZE, item::SIZE)
        );
    }

    #[test]
    fn a_field_is_counted_from_another_start() {
        assert_eq!(passport::in_rest(passport::LABELS), Field::new(1, 1));
        assert_eq!(descriptor::in_carried(descriptor::KEEPING), Field::new(3, 1));
        assert_eq!(header::TOTAL.at(START).range(), 456..460);
    }
}
