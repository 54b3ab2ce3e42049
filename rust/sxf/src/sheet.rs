//! A sheet is checked, read, and asked.
use crate::coordinates::{HeightUnit, Unit};
use crate::head::{Corners, Head};
use crate::index::Index;
use crate::pick::{select_sized, OtherSheet, Pick, Picks};
use crate::record::{Common, Record, RecordAt, Records};
use crate::refusal::low32;
use crate::table::{Table, TableRef};
use crate::tails::{tails, Tails};
use crate::writer::write;
use crate::{Coding, Refusal, Setting};
use sxf_sys::fields::passport;
use sxf_sys::{lent, Field, Rest};

/// What an accepted sheet has: the low 32 bits of its sum, its count of records, and the lengths of the three outputs of unfolding it.
#[derive(Clone, Copy, Debug, PartialEq, Eq)]
pub struct Sizes {
    /// The sum of its bytes, with the four at 12 counted as zero: "the sum may now pass 32 bits, and only its low 32 are kept" (02, request 7).
    pub sum: u32,
    /// How many records it has.
    pub records: usize,
    /// How many numbers its record table has.
    pub numbers: usize,
    /// How many elements.
    pub elements: usize,
    /// How many bytes of texts and values.
    pub bytes: usize,
}

impl Sizes {
    pub(crate) fn of(answer: sxf_sys::Checked) -> Result<Sizes, Refusal> {
        Refusal::answered(answer.number, answer.place, answer.year)?;
        Ok(Sizes {
            sum: low32(answer.sum),
            records: answer.records as usize,
            numbers: answer.numbers as usize,
            elements: answer.elements as usize,
            bytes: answer.bytes as usize,
        })
    }

    /// The lengths of the three outputs, in their order.
    pub(crate) fn lengths(&self) -> [usize; 3] {
        [self.numbers, self.elements, self.bytes]
    }
}

/// Checks a sheet: its sizes, or why it is refused.
///
/// ```
/// use sxf::{check, Refusal, Setting};
/// assert_eq!(check(b"no sheet", Setting::Y2017).unwrap_err().number, Refusal::SHORT);
/// ```
pub fn check(sheet: &[u8], setting: Setting) -> Result<Sizes, Refusal> {
    Sizes::of(lent::check(sheet, setting.year()))
}

/// One record of a sheet, by its number from 0. The whole sheet is checked first, so for many records read the sheet once.
pub fn record_at(sheet: &[u8], setting: Setting, number: u64) -> Result<RecordAt, Refusal> {
    let answer = lent::record_at(sheet, setting.year(), number);
    Refusal::answered(answer.number, answer.place, answer.year)?;
    Ok(RecordAt::of(&answer))
}

fn unit_of(sheet: &[u8], setting: Setting) -> Result<Unit, Refusal> {
    let answer = lent::unit_of(sheet, setting.year());
    Refusal::answered(answer.number, answer.place, answer.year)?;
    Ok(Unit::of(answer.unit, answer.byte))
}

/// The rest of an accepted sheet, which is long enough for it.
fn rest_of(sheet: &[u8]) -> Result<&Rest, Refusal> {
    let rest = sheet.get(passport::REST.place..).and_then(|from| from.first_chunk());
    rest.ok_or(Refusal { number: Refusal::SHORT, place: 0, year: 0 })
}

/// The coding of an accepted sheet's labels, which is one of three.
fn labels_of(byte: u8) -> Result<Coding, Refusal> {
    Coding::of_labels(byte).ok_or(Refusal { number: Refusal::RESERVED, place: passport::LABELS.place, year: 0 })
}

/// An accepted sheet: its bytes, lent, and its record table.
#[derive(Clone, Debug)]
pub struct Sheet<'a> {
    bytes: &'a [u8],
    setting: Setting,
    sizes: Sizes,
    table: Table,
    unit: Unit,
    common: Common<'a>,
}

impl<'a> Sheet<'a> {
    /// Reads a sheet for a setting: it is checked, unfolded, and its unit is asked for.
    ///
    /// ```
    /// use sxf::{Setting, Sheet};
    /// # let bytes = include_bytes!("../../../samples/Q.sxf");
    /// let sheet = Sheet::read(bytes, Setting::Y2017)?;
    /// for record in sheet.records() {
    ///     for part in record.parts() {
    ///         for point in part.points() {
    ///             println!("{} {} in {}", point.x.number(), point.y.number(), point.x.unit());
    ///         }
    ///     }
    /// }
    /// # assert_eq!(sheet.record(0)?.parts().next().map(|part| part.points().len()), Some(1));
    /// # Ok::<(), sxf::Refusal>(())
    /// ```
    pub fn read(bytes: &'a [u8], setting: Setting) -> Result<Sheet<'a>, Refusal> {
        let sizes = check(bytes, setting)?;
        let table = Table::unfold_sized(bytes, setting, &sizes)?;
        let rest = rest_of(bytes)?;
        let byte = |field: Field| rest[passport::in_rest(field).place];
        let common = Common { rest, flags: byte(passport::FLAGS), labels: labels_of(byte(passport::LABELS))? };
        Ok(Sheet { bytes, setting, sizes, table, unit: unit_of(bytes, setting)?, common })
    }

    /// The sheet's bytes.
    pub fn bytes(&self) -> &'a [u8] {
        self.bytes
    }

    /// The setting that it was read for.
    pub fn setting(&self) -> Setting {
        self.setting
    }

    /// The low 32 bits of the sum of its bytes.
    pub fn sum(&self) -> u32 {
        self.sizes.sum
    }

    /// How many records it has.
    pub fn record_count(&self) -> usize {
        self.sizes.records
    }

    /// Its sum, count and sizes.
    pub fn sizes(&self) -> Sizes {
        self.sizes
    }

    /// Its record table.
    pub fn table(&self) -> TableRef<'_> {
        self.table.lend()
    }

    /// Its record table, to keep.
    pub fn into_table(self) -> Table {
        self.table
    }

    /// The unit of its coordinates.
    pub fn unit(&self) -> Unit {
        self.unit
    }

    /// The unit of its heights, whatever that of its coordinates is.
    pub fn height_unit(&self) -> HeightUnit {
        HeightUnit::of_rest(self.common.rest)
    }

    /// Its head as the writer takes it, with all that is carried. The library checks the sheet again for it.
    pub fn head(&self) -> Result<Head<'a>, Refusal> {
        let answer = lent::head_of(self.bytes, self.setting.year());
        Refusal::answered(answer.number, answer.place, answer.year)?;
        Head::of(self.bytes, &answer).ok_or(Refusal { number: Refusal::SHORT, place: 0, year: 0 })
    }

    /// What stands after the first zero of each of its text fields, and whether that is clean. The library checks the sheet again for it.
    pub fn tails(&self) -> Result<Tails<'a>, Refusal> {
        tails(self.bytes, self.setting)
    }

    /// Its bytes with the tails of its text fields cleared and the sum to match: what was read of it, written for its setting. Where all four tails
    /// [are clean](Tails::is_clean) these are its bytes. A sheet that was read is not refused here.
    ///
    /// ```
    /// use sxf::{Setting, Sheet};
    /// # let bytes = include_bytes!("../../../samples/dirty-tail.sxf");
    /// let sheet = Sheet::read(bytes, Setting::Y2017)?;
    /// let cleared = sheet.cleared()?;
    /// // One old letter, and the sum that it was counted in.
    /// assert_eq!((bytes[40], cleared[40], sheet.sum() - sxf::check(&cleared, Setting::Y2017)?.sum), (b'B', 0, b'B'.into()));
    /// assert_eq!(Sheet::read(&cleared, Setting::Y2017)?.cleared()?, cleared);
    /// # Ok::<(), sxf::Refusal>(())
    /// ```
    pub fn cleared(&self) -> Result<Vec<u8>, Refusal> {
        write(&self.head()?, self.table(), self.setting)
    }

    /// Its eight plane corners. The library checks the sheet again for it.
    pub fn corners(&self) -> Result<Corners, Refusal> {
        let answer = lent::corners_of(self.bytes, self.setting.year());
        Refusal::answered(answer.number, answer.place, answer.year)?;
        Ok(Corners::of(&answer))
    }

    /// Its records, in order.
    pub fn records(&self) -> Records<'_> {
        Records::of(self.bytes, self.common, self.table.rows())
    }

    /// The record of a number, from 0, or ASK. It goes over the rows before it.
    pub fn record(&self, number: usize) -> Result<Record<'_>, Refusal> {
        self.records().nth(number).ok_or(Refusal::NO_SUCH)
    }

    /// Its frame: the first record with the class code that [`Head::frame_code`] has; none where no record has it. It goes over the rows before
    /// it. The function [`sxf::frame`](crate::frame) finds it without reading the sheet. A sheet that was read is not refused here.
    ///
    /// ```
    /// # let bytes = include_bytes!("../../../samples/frame.sxf");
    /// # let sheet = sxf::Sheet::read(bytes, sxf::Setting::Y2017)?;
    /// let frame = sheet.frame()?.expect("a frame");
    /// assert_eq!((frame.number(), frame.code()), (1, sheet.head()?.frame_code()));
    /// # Ok::<(), sxf::Refusal>(())
    /// ```
    pub fn frame(&self) -> Result<Option<Record<'_>>, Refusal> {
        let found = crate::frame(self.bytes)?.found;
        Ok(found.and_then(|hit| self.records().go_to(hit.record)))
    }

    /// Its [code index](crate::index), to keep beside it. The library checks the sheet again for it.
    pub fn index(&self) -> Result<Index, Refusal> {
        Index::build_sized(self.bytes, self.setting, self.sizes.records)
    }

    /// Its records of a class code, without an index. The library checks the sheet again for it.
    ///
    /// ```
    /// # let bytes = include_bytes!("../../../samples/labels.sxf");
    /// # let sheet = sxf::Sheet::read(bytes, sxf::Setting::Y2017)?;
    /// let picks = sheet.select(91_000_000)?;
    /// for record in sheet.records_of(picks) {
    ///     println!("{:?}", record?.parts().next().and_then(|part| part.text()));
    /// }
    /// # Ok::<(), Box<dyn std::error::Error>>(())
    /// ```
    pub fn select(&self, code: u32) -> Result<Picks, Refusal> {
        select_sized(self.bytes, self.setting, code, self.sizes.records)
    }

    /// The record of a pick. It is given only if the sheet's record of that number has the pick's place, code and localisation: by the
    /// [index of another sheet](crate::index#which-sheet-it-belongs-to) it may be none, or another one. It goes over the rows before it.
    ///
    /// ```
    /// use sxf::{Index, Setting, Sheet};
    /// # let (labels, q) = (include_bytes!("../../../samples/labels.sxf"), include_bytes!("../../../samples/Q.sxf"));
    /// let index = Index::build(labels, Setting::Y2017)?;
    /// let pick = index.select(91_000_000).next().expect("a label");
    /// assert_eq!(Sheet::read(labels, Setting::Y2017)?.record_of(&pick)?.in_group(), 7);
    ///
    /// let other = Sheet::read(q, Setting::Y2017)?.record_of(&pick).unwrap_err();
    /// let told = "the pick is no record of this sheet: it is record 0 at 452 (0x1c4), code 91000000, localisation 3, \
    ///             where the sheet has record 0 at 452 (0x1c4), code 0, localisation 2";
    /// assert_eq!(other.to_string(), told);
    /// # Ok::<(), Box<dyn std::error::Error>>(())
    /// ```
    pub fn record_of(&self, pick: &Pick) -> Result<Record<'_>, OtherSheet> {
        pick.held_against(self.records().go_to(pick.record))
    }

    /// The records of picks, each as [`record_of`](Sheet::record_of) gives it, in one walk over the rows as long as the picks are in record order,
    /// as those of a selection are.
    pub fn records_of(&self, picks: impl IntoIterator<Item = Pick>) -> impl Iterator<Item = Result<Record<'_>, OtherSheet>> {
        let mut records = self.records();
        picks.into_iter().map(move |pick| match records.go_to(pick.record) {
            Some(record) => pick.held_against(Some(record)),
            // It was passed already, or there is none.
            None => self.record_of(&pick),
        })
    }
}
