//! What stands before the records: texts, scale and carried bytes, as the writer takes them, and the plane corners.
use crate::coordinates::Number;
use crate::Coding;
use sxf_sys::fields::{descriptor, passport, Carried, Field, Rest};

/// The head of a sheet: passport and descriptor without what is always the same or is worked out (identifiers, lengths, edition, sum, count).
///
/// It is what a sheet that was read answers and what a sheet to be written takes. The texts are without zeros, in [`Head::CODING`]; what stands in
/// their fields after the first zero is no part of them, and [`Sheet::tails`](crate::Sheet::tails) has it. The 304 bytes from +96 and the four at
/// 444 are carried as stored.
///
/// ```
/// use sxf::{Head, Setting, Sheet, Writer};
/// let title = Head::CODING.bytes("Северный берег")?;
/// let sheet = Writer::new(Head { title: &title, ..Head::PLAIN })?.write(Setting::Y1999)?;
/// let head = Sheet::read(&sheet, Setting::Y2017)?.head()?;
/// assert_eq!(head.title, b"\xD1\xE5\xE2\xE5\xF0\xED\xFB\xE9 \xE1\xE5\xF0\xE5\xE3");
/// assert_eq!(Head::CODING.string(head.title)?, "Северный берег");
/// # Ok::<(), Box<dyn std::error::Error>>(())
/// ```
#[derive(Clone, Copy, Debug, PartialEq, Eq)]
pub struct Head<'a> {
    /// The date at 16, of at most 11 bytes.
    pub date: &'a [u8],
    /// The designation at 28, of at most 31 bytes.
    pub designation: &'a [u8],
    /// The scale's denominator at 60.
    pub scale: u32,
    /// The title at 64, of at most 31 bytes.
    pub title: &'a [u8],
    /// The 304 bytes of the passport from +96 on.
    pub rest: &'a Rest,
    /// The descriptor's designation at 408, of at most 31 bytes. It need not be the passport's.
    pub designation2: &'a [u8],
    /// The four bytes at 444.
    pub carried: &'a Carried,
}

const fn plain_rest() -> Rest {
    let mut rest = [0; passport::REST.width];
    rest[passport::in_rest(passport::FLAGS).place] = 3;
    rest
}

static PLAIN_REST: Rest = plain_rest();

/// The N bytes of a field of the rest. The fields asked for here are constants, which a test goes over.
fn field<const N: usize>(rest: &Rest, field: Field) -> [u8; N] {
    let bytes = rest.get(passport::in_rest(field).range()).and_then(|bytes| bytes.first_chunk());
    bytes.copied().unwrap_or([0; N])
}

impl<'a> Head<'a> {
    /// No text, scale 0, and of the carried bytes only what a sheet must have.
    pub const PLAIN: Head<'static> =
        Head { date: b"", designation: b"", scale: 0, title: b"", rest: &PLAIN_REST, designation2: b"", carried: &[3, 0, 0, 0] };

    /// The coding of its four texts: source document 000 has those of passport and descriptor in ANSI.
    pub const CODING: Coding = Coding::Windows;

    /// The bytes of an accepted sheet that a head is made of; none where the sheet is too short for one.
    pub(crate) fn of(sheet: &'a [u8], lengths: &sxf_sys::Head) -> Option<Head<'a>> {
        let text = |field: Field, length: u64| sheet.get(field.place..)?.get(..usize::try_from(length).ok()?);
        Some(Head {
            date: text(passport::DATE, lengths.date)?,
            designation: text(passport::DESIGNATION, lengths.designation)?,
            scale: u32::try_from(lengths.scale).ok()?,
            title: text(passport::TITLE, lengths.title)?,
            rest: sheet.get(passport::REST.place..)?.first_chunk()?,
            designation2: text(descriptor::DESIGNATION, lengths.designation2)?,
            carried: sheet.get(descriptor::CARRIED.place..)?.first_chunk()?,
        })
    }

    /// The flags at +96, whose bit 7 picks the generalisation table.
    pub fn flags(&self) -> u8 {
        u8::from_le_bytes(field(self.rest, passport::FLAGS))
    }

    /// The coding of labels, at +97, but for records [that have their own](crate::Reference::label_coding); none for a byte over 2, which is
    /// refused in a sheet.
    pub fn label_coding(&self) -> Option<Coding> {
        Coding::of_labels(u8::from_le_bytes(field(self.rest, passport::LABELS)))
    }

    /// The accuracy at +98, 0 to 3.
    pub fn accuracy(&self) -> u8 {
        u8::from_le_bytes(field(self.rest, passport::ACCURACY))
    }

    /// Special sorting, bit 0 at +99.
    pub fn special_sorting(&self) -> bool {
        u8::from_le_bytes(field(self.rest, passport::SORTING)) & 1 != 0
    }

    /// The EPSG code at +100, or 0.
    pub fn epsg(&self) -> u32 {
        u32::from_le_bytes(field(self.rest, passport::EPSG))
    }

    /// The resolution at +312, in points to a metre. A negative one makes the sheet real.
    pub fn resolution(&self) -> i32 {
        i32::from_le_bytes(field(self.rest, passport::RESOLUTION))
    }

    /// The class code of the sheet's frame, at +348. [`Sheet::frame`](crate::Sheet::frame) is the first record that has it.
    pub fn frame_code(&self) -> u32 {
        u32::from_le_bytes(field(self.rest, passport::FRAME))
    }

    /// The north offset at +384.
    pub fn north_offset(&self) -> Number {
        Number::of_double(u64::from_le_bytes(field(self.rest, passport::NORTH)))
    }

    /// The east offset at +392.
    pub fn east_offset(&self) -> Number {
        Number::of_double(u64::from_le_bytes(field(self.rest, passport::EAST)))
    }

    /// The secrecy at 446, 0 to 5.
    pub fn secrecy(&self) -> u8 {
        self.carried[descriptor::in_carried(descriptor::SECRECY).place]
    }

    /// Automatic GUID, bit 0 at 447.
    pub fn automatic_guid(&self) -> bool {
        self.keeping() & 1 != 0
    }

    /// Edit date, bit 1 at 447.
    pub fn edit_date(&self) -> bool {
        self.keeping() & 2 != 0
    }

    fn keeping(&self) -> u8 {
        self.carried[descriptor::in_carried(descriptor::KEEPING).place]
    }
}

/// The eight plane corners as doubles, a NaN as its bits. X is upwards, Y to the right.
#[derive(Clone, Copy, Debug, PartialEq)]
pub struct Corners {
    /// The place in the passport of the first corner that is a NaN.
    pub nan_at: Option<usize>,
    /// X of the south-west corner.
    pub sw_x: Number,
    /// Y of the south-west corner.
    pub sw_y: Number,
    /// X of the north-west corner.
    pub nw_x: Number,
    /// Y of the north-west corner.
    pub nw_y: Number,
    /// X of the north-east corner.
    pub ne_x: Number,
    /// Y of the north-east corner.
    pub ne_y: Number,
    /// X of the south-east corner.
    pub se_x: Number,
    /// Y of the south-east corner.
    pub se_y: Number,
}

impl Corners {
    pub(crate) fn of(answer: &sxf_sys::Corners) -> Corners {
        Corners {
            nan_at: (answer.nan_at != 0).then_some(answer.nan_at as usize),
            sw_x: Number::of_double(answer.sw_x),
            sw_y: Number::of_double(answer.sw_y),
            nw_x: Number::of_double(answer.nw_x),
            nw_y: Number::of_double(answer.nw_y),
            ne_x: Number::of_double(answer.ne_x),
            ne_y: Number::of_double(answer.ne_y),
            se_x: Number::of_double(answer.se_x),
            se_y: Number::of_double(answer.se_y),
        }
    }
}

#[cfg(test)]
mod tests {
    use super::*;

    #[test]
    fn fields_are_read_at_their_places() {
        let rest: Rest = std::array::from_fn(|i| i as u8);
        let head = Head { rest: &rest, carried: &[3, 1, 5, 2], ..Head::PLAIN };
        assert_eq!((head.flags(), head.label_coding(), head.accuracy()), (0, Some(Coding::Windows), 2));
        assert_eq!((head.epsg(), head.special_sorting()), (0x0706_0504, true));
        assert_eq!(head.resolution(), i32::from_le_bytes([216, 217, 218, 219]));
        assert_eq!(head.frame_code(), u32::from_le_bytes([252, 253, 254, 255]));
        assert_eq!(head.north_offset(), Number::of_double(u64::from_le_bytes([32, 33, 34, 35, 36, 37, 38, 39])));
        assert_eq!(head.east_offset(), Number::of_double(u64::from_le_bytes([40, 41, 42, 43, 44, 45, 46, 47])));
        assert_eq!((head.secrecy(), head.automatic_guid(), head.edit_date()), (5, false, true));
    }
}
