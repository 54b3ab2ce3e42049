//! The first record with a class code, and the frame of the sheet, found without reading the sheet.
//!
//! It goes from header to header, a header being the 32 bytes that a record begins with, and stops at the first record with the code or after as many
//! as the sheet counts. The sheet is lent whole, and only its first 452 bytes and the headers on the way are touched. The frame is the record whose
//! code the passport has at 348.
//!
//! ```
//! # let sheet = include_bytes!("../../../samples/frame.sxf");
//! let hop = sxf::frame(sheet)?;
//! println!("code {}, headers looked at: {}", hop.code, hop.looked);
//! if let Some(hit) = hop.found {
//!     println!("record {} at {}, {} bytes", hit.record, hit.place, hit.total());
//! }
//! # assert_eq!(hop.found.map(|hit| (hit.record, hit.place, hit.total())), Some((1, 488, 52)));
//! # Ok::<(), sxf::Refusal>(())
//! ```
//!
//! # What the answer rests on
//!
//! The sheet is not checked, and no setting is asked for. On a sheet that [`check`](crate::check) accepts at some setting it is the first record with
//! that code that reading the sheet gives, or there is none; this is proved. On other bytes it says only what the headers looked at say: it rests on
//! the sheet's length, its two identifiers, the count of records at 440, these headers and, for the frame, the code at 348. Of these only
//! identifiers and the range of total lengths are checked: a damaged count, code or length can give another record, or none, without a refusal.
//! Damage anywhere else is not noticed. To trust the answer, check the sheet.
//!
//! ```
//! # use sxf::Setting;
//! # let sheet = include_bytes!("../../../samples/frame.sxf");
//! let mut damaged = sheet.to_vec();
//! damaged[540..].fill(0xFF); // all that stands after the frame
//! assert!(sxf::check(&damaged, Setting::Y2017).is_err());
//! assert_eq!(sxf::frame(&damaged)?, sxf::frame(sheet)?);
//! # Ok::<(), sxf::Refusal>(())
//! ```
//!
//! # What the record holds
//!
//! The calls that check the sheet tell it: [`Sheet::record`](crate::Sheet::record) takes its number, and so does [`record_at`](crate::record_at), as
//! a `u64`.
//!
//! ```
//! # use sxf::Setting;
//! # let sheet = include_bytes!("../../../samples/frame.sxf");
//! if let Some(hit) = sxf::frame(sheet)?.found {
//!     let record = sxf::record_at(sheet, Setting::Y2017, hit.record as u64)?;
//!     assert_eq!(record.place, hit.place);
//! }
//! # Ok::<(), sxf::Refusal>(())
//! ```
//!
//! # Refusals
//!
//! In this order: a sheet that is too long, TOO LONG at 0; one that is too short for passport and descriptor, SHORT at 0; another identifier, NOT SXF at 0
//! or 400. Then header by header, before its code is looked at: fewer than 32 bytes left, SHORT, and another identifier, NOT SXF, both at the record's
//! start; a total length under 32, LENGTH, or past the end, SHORT, both 4 bytes after it. A record whose header is refused is never the hit, and
//! those after the hit are not looked at.
use crate::refusal::Refusal;
use sxf_sys::fields::passport;
use sxf_sys::lent;

/// The first record with a class code. The sheet [is not checked](self#what-the-answer-rests-on).
///
/// ```
/// use sxf::{first_with, Refusal};
/// # let sheet = include_bytes!("../../../samples/mark-small.sxf");
/// let lake = first_with(sheet, 31_120_000)?;
/// assert_eq!((lake.found.map(|hit| hit.place), lake.looked), (Some(452), 1));
/// let well = first_with(sheet, 7)?;
/// assert_eq!((well.found, well.looked), (None, 2));
/// assert_eq!(first_with(b"no sheet", 7).unwrap_err().number, Refusal::SHORT);
/// # Ok::<(), Refusal>(())
/// ```
pub fn first_with(sheet: &[u8], code: u32) -> Result<Hop<'_>, Refusal> {
    Hop::answered(sheet, code, &lent::first_with(sheet, code))
}

/// The frame of the sheet: the first record with the class code that the passport has at 348. 0 is a code like any other: a sheet that names no frame
/// has 0 there, and then its first record of code 0 is told, if it has one ([`Hop::code`] says which code it was). The sheet
/// [is not checked](self#what-the-answer-rests-on). [`Sheet::frame`](crate::Sheet::frame) gives the record of a sheet that was read.
///
/// ```
/// # let sheet = include_bytes!("../../../samples/frame.sxf");
/// let hop = sxf::frame(sheet)?;
/// assert_eq!((hop.code, hop.looked), (93_100_000, 2));
/// assert_eq!(hop.found.map(|hit| hit.bytes), Some(&sheet[488..540]));
/// # Ok::<(), sxf::Refusal>(())
/// ```
pub fn frame(sheet: &[u8]) -> Result<Hop<'_>, Refusal> {
    Hop::answered(sheet, frame_code(sheet), &lent::frame_of(sheet))
}

/// The class code at +348. A sheet that is too short for it is refused, whatever is given here.
fn frame_code(sheet: &[u8]) -> u32 {
    let bytes = sheet.get(passport::FRAME.range()).and_then(|bytes| bytes.first_chunk());
    u32::from_le_bytes(bytes.copied().unwrap_or_default())
}

/// What is found from header to header, and how many of them were looked at.
#[derive(Clone, Copy, Debug, PartialEq, Eq)]
pub struct Hop<'a> {
    /// The class code that was asked for; for the frame the one that the passport has.
    pub code: u32,
    /// The first record with it; none where no counted record has it.
    pub found: Option<Hit<'a>>,
    /// How many headers were looked at: the hit's number plus one, or the count of records that the descriptor states.
    pub looked: usize,
}

/// The first record with the code, as its header has it.
#[derive(Clone, Copy, Debug, PartialEq, Eq)]
pub struct Hit<'a> {
    /// The record's number, from 0.
    pub record: usize,
    /// Where the record starts in the sheet.
    pub place: usize,
    /// The record's bytes in the sheet, as many as its total length says. Of what follows the header nothing was looked at.
    pub bytes: &'a [u8],
}

impl<'a> Hop<'a> {
    fn answered(sheet: &'a [u8], code: u32, answer: &sxf_sys::Hop) -> Result<Hop<'a>, Refusal> {
        Refusal::answered(answer.number, answer.place, answer.year)?;
        let found = match answer.found {
            0 => None,
            _ => Some(Hit::answered(sheet, answer)?),
        };
        Ok(Hop { code, found, looked: answer.looked as usize })
    }
}

impl<'a> Hit<'a> {
    /// A hit lies within the sheet; one that does not would go against the library's contract.
    fn answered(sheet: &'a [u8], answer: &sxf_sys::Hop) -> Result<Hit<'a>, Refusal> {
        let (record, place, total) = (answer.record as usize, answer.at as usize, answer.total as usize);
        let bytes = sheet.get(place..).and_then(|from| from.get(..total));
        bytes.map(|bytes| Hit { record, place, bytes }).ok_or(Refusal { number: Refusal::SHORT, place, year: 0 })
    }

    /// Its total length.
    pub fn total(&self) -> usize {
        self.bytes.len()
    }
}
