//! How a record stands in the record table: which number has which index (01, The record table).
//!
//! "Per record eight numbers: code, number in group, group number, reference bytes as one number (byte 20 lowest), generalisation, word at
//! +24, parts (1 + subobjects), items. Then per part two: points, text length. Then per item four: code, type, scale byte, value length."
//! "The record row gains a ninth number, mark 0 or 1" (02, request 2), after items.
//!
//! ```
//! use sxf_sys::row;
//! // The record of document 01's sheet P: a point with its visibility unset.
//! let record = row::Record { reference: 2, generalisation: 255, parts: 1, ..row::Record::default() };
//! assert_eq!(record.numbers(), [0, 0, 0, 2, 255, 0, 1, 0, 0]);
//! assert_eq!(row::Part { points: 1, text_length: 0 }.numbers(), [1, 0]);
//! ```

/// Index of a record's class code, counted from the record's first number, as those that follow.
pub const CODE: usize = 0;
/// Index of its number in its group.
pub const IN_GROUP: usize = 1;
/// Index of its group's number.
pub const GROUP: usize = 2;
/// Index of its reference bytes as one number.
pub const REFERENCE: usize = 3;
/// Index of its generalisation byte.
pub const GENERALISATION: usize = 4;
/// Index of the word at +24.
pub const WORD: usize = 5;
/// Index of its count of parts.
pub const PARTS: usize = 6;
/// Index of its count of items.
pub const ITEMS: usize = 7;
/// Index of its mark.
pub const MARK: usize = 8;
/// How many numbers a record has before those of its parts.
pub const ROW_WIDTH: usize = 9;

/// Index of a part's count of points, counted from the part's first number.
pub const POINTS: usize = 0;
/// Index of the length of its text.
pub const TEXT_LENGTH: usize = 1;
/// How many numbers a part has.
pub const PART_WIDTH: usize = 2;

/// Index of an item's code, counted from the item's first number.
pub const ITEM_CODE: usize = 0;
/// Index of its type.
pub const ITEM_TYPE: usize = 1;
/// Index of its scale byte.
pub const ITEM_SCALE: usize = 2;
/// Index of the length of its value.
pub const ITEM_LENGTH: usize = 3;
/// How many numbers an item has.
pub const ITEM_WIDTH: usize = 4;

/// How many numbers a record with so many parts and items has.
pub const fn row_size(parts: usize, items: usize) -> usize {
    ROW_WIDTH + (PART_WIDTH * parts + ITEM_WIDTH * items)
}

/// A struct of numbers by name, and the way to the numbers in their order and back.
macro_rules! named {
    ($(#[$about:meta])* $name:ident, $width:ident, $($(#[$doc:meta])* $field:ident $index:ident,)*) => {
        $(#[$about])*
        #[derive(Clone, Copy, Debug, Default, PartialEq, Eq)]
        pub struct $name {
            $($(#[$doc])* pub $field: u64,)*
        }

        impl $name {
            /// The numbers as they stand in the table.
            pub const fn numbers(self) -> [u64; $width] {
                let mut numbers = [0; $width];
                $(numbers[$index] = self.$field;)*
                numbers
            }

            /// The numbers of the table, by name.
            pub const fn of(numbers: &[u64; $width]) -> $name {
                $name { $($field: numbers[$index],)* }
            }
        }
    };
}

named! {
    /// A record's numbers, by name.
    Record, ROW_WIDTH,
    /// Its class code.
    code CODE,
    /// Its number in its group.
    in_group IN_GROUP,
    /// Its group's number.
    group GROUP,
    /// Its reference bytes as one number, byte 20 lowest.
    reference REFERENCE,
    /// Its generalisation byte.
    generalisation GENERALISATION,
    /// The word at +24.
    word WORD,
    /// How many parts it has: one more than its subobjects.
    parts PARTS,
    /// How many items it has.
    items ITEMS,
    /// Its mark: 1 where the points at +30 are 65535 and the word is the first part's points, else 0.
    mark MARK,
}

named! {
    /// A part's numbers, by name.
    Part, PART_WIDTH,
    /// How many points it has.
    points POINTS,
    /// How long its text is, without the closing zero.
    text_length TEXT_LENGTH,
}

named! {
    /// An item's numbers, by name.
    Item, ITEM_WIDTH,
    /// Its code.
    code ITEM_CODE,
    /// Its type.
    kind ITEM_TYPE,
    /// Its scale byte.
    scale ITEM_SCALE,
    /// How long its value is, with its closing zeros.
    length ITEM_LENGTH,
}

#[cfg(test)]
mod tests {
    use super::*;

    #[test]
    fn names_and_numbers_go_to_and_fro() {
        let record = [1, 2, 3, 4, 5, 6, 7, 8, 9];
        assert_eq!(Record::of(&record).numbers(), record);
        assert_eq!((Record::of(&record).code, Record::of(&record).reference, Record::of(&record).mark), (1, 4, 9));
        assert_eq!(Part::of(&[1, 2]), Part { points: 1, text_length: 2 });
        assert_eq!(Item::of(&[1, 2, 3, 4]).numbers(), [1, 2, 3, 4]);
    }

    /// The cases of `Shared/Row.antt`.
    #[test]
    fn a_row_has_the_definitions_sizes() {
        assert_eq!((row_size(1, 0), row_size(2, 3)), (11, 25));
    }
}
