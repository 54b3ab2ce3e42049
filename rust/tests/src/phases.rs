//! The phases: what a case is, and how many cases there are.

use crate::coordinates;
use crate::each;
use crate::heads::{head, NO_SETTINGS, SETTINGS};
use crate::hops;
use crate::indexes;
use crate::judge::{Care, Judge};
use crate::known;
use crate::large;
use crate::limits;
use crate::numbers::Numbers;
use crate::places::places;
use crate::sheet_damage;
use crate::sheets::{setting, small_sheet, Made};
use crate::sums;
use crate::table_damage;
use crate::tables::{small, table};
use crate::texts;
use second::{Head, Table};

/// One kind of cases.
#[derive(Clone, Copy, PartialEq, Eq, Debug)]
pub enum Phase {
    /// The documents' own sheets.
    Known,
    /// What each generalisation byte says under one byte of flags.
    Visibility,
    /// The value of one number for all types and scales.
    Values,
    /// Slices of no length, in all combinations.
    Empty,
    /// Sheets at the limit and over it.
    Limits,
    /// Every bit of a sheet.
    EachBit,
    /// Every cut of a sheet.
    EachCut,
    /// Every place for one value of a byte.
    EachByte,
    /// Every number of a table.
    EachNumber,
    /// Sheets that are right.
    Sheets,
    /// Sheets that were right before they were damaged.
    DamagedSheets,
    /// Tables that are right.
    Tables,
    /// Tables that were right before they were damaged.
    DamagedTables,
    /// Records of many points, parts, items or bytes, right or not.
    Large,
    /// Elements of points, for one value of a byte.
    Coordinates,
    /// Elements of points that are drawn.
    DrawnCoordinates,
    /// Every byte of each coding and every unit of UTF-16, for one value of a
    /// byte.
    EachUnit,
    /// Texts and units that are drawn.
    Texts,
    /// The code indexes of sheets about whole numbers of blocks, at every
    /// setting.
    EachSize,
    /// Every byte and every length of a code index, for one count of its last
    /// block.
    EachBlock,
    /// Sheets that are drawn, and their code indexes.
    Indexes,
    /// Code indexes of entries that may be any, right or damaged.
    DamagedIndexes,
    /// Hops over a sheet of which everything is altered that they look at or
    /// not, one by one.
    EachHop,
    /// Hops over sheets that are drawn, right or damaged.
    Hops,
    /// Sheets whose sum is about 32 bits or passes them.
    Sums,
}

pub const PHASES: [Phase; 25] = [
    Phase::Known,
    Phase::Visibility,
    Phase::Values,
    Phase::Coordinates,
    Phase::DrawnCoordinates,
    Phase::EachUnit,
    Phase::Texts,
    Phase::Empty,
    Phase::Limits,
    Phase::Sums,
    Phase::EachBit,
    Phase::EachCut,
    Phase::EachByte,
    Phase::EachNumber,
    Phase::Sheets,
    Phase::DamagedSheets,
    Phase::Tables,
    Phase::DamagedTables,
    Phase::Large,
    Phase::EachSize,
    Phase::EachBlock,
    Phase::Indexes,
    Phase::DamagedIndexes,
    Phase::EachHop,
    Phase::Hops,
];

impl Phase {
    pub fn name(self) -> &'static str {
        match self {
            Phase::Known => "known",
            Phase::Visibility => "visibility",
            Phase::Values => "values",
            Phase::Empty => "empty",
            Phase::Limits => "limits",
            Phase::Sums => "sums",
            Phase::EachBit => "each-bit",
            Phase::EachCut => "each-cut",
            Phase::EachByte => "each-byte",
            Phase::EachNumber => "each-number",
            Phase::Sheets => "sheets",
            Phase::DamagedSheets => "damaged-sheets",
            Phase::Tables => "tables",
            Phase::DamagedTables => "damaged-tables",
            Phase::Large => "large",
            Phase::Coordinates => "coordinates",
            Phase::DrawnCoordinates => "drawn-coords",
            Phase::EachUnit => "each-unit",
            Phase::Texts => "texts",
            Phase::EachSize => "each-size",
            Phase::EachBlock => "each-block",
            Phase::Indexes => "indexes",
            Phase::DamagedIndexes => "damaged-indexes",
            Phase::EachHop => "each-hop",
            Phase::Hops => "hops",
        }
    }

    /// How many cases there are, and in a run so many times as long. Those
    /// that go through everything there is are no more in a longer run.
    pub fn cases(self, times: u64) -> u64 {
        match self {
            Phase::Known => known::CASES,
            Phase::Visibility | Phase::Coordinates | Phase::EachByte | Phase::EachUnit => 256,
            Phase::Values => VALUES,
            Phase::Limits => limits::CASES,
            Phase::Sums => sums::CASES,
            Phase::Empty => 1024,
            Phase::EachBit => 60 * times,
            Phase::EachCut => 60 * times,
            Phase::EachNumber => 200 * times,
            Phase::Sheets => 100_000 * times,
            Phase::DamagedSheets => 200_000 * times,
            Phase::Tables => 70_000 * times,
            Phase::DamagedTables => 140_000 * times,
            Phase::Large => 2000 * times,
            Phase::DrawnCoordinates => 20_000 * times,
            Phase::Texts => 25_000 * times,
            Phase::EachSize => indexes::EACH_SIZE,
            Phase::EachBlock => indexes::EACH_BLOCK,
            Phase::Indexes => 5000 * times,
            Phase::DamagedIndexes => 60_000 * times,
            Phase::EachHop => hops::EACH_HOP,
            Phase::Hops => 10_000 * times,
        }
    }

    /// Whether a case of it takes hundreds of MB.
    pub fn is_large(self) -> bool {
        matches!(self, Phase::Limits | Phase::Sums)
    }

    /// Whether its cases are drawn at random.
    pub fn is_drawn(self) -> bool {
        self.cases(2) > self.cases(1)
    }

    /// Runs one case.
    pub fn run(self, judge: &mut Judge, seed: u64, case: u64) {
        let numbers = &mut Numbers::of_case(seed, self as u64, case);
        judge.start(numbers.any());
        match self {
            Phase::Known => known::run(judge, case),
            Phase::Visibility => visibilities(judge, case as u8),
            Phase::Values => values(judge, numbers, case),
            Phase::Empty => empty(judge, numbers, case),
            Phase::Limits => limits::run(judge, case, numbers),
            Phase::Sums => sums::run(judge, case, numbers),
            Phase::EachByte => each::byte(judge, case as u8, numbers),
            Phase::EachBit | Phase::EachCut | Phase::Sheets | Phase::DamagedSheets => self.with_sheet(judge, numbers),
            Phase::EachNumber | Phase::Tables | Phase::DamagedTables => self.with_table(judge, numbers),
            Phase::Large => large::run(judge, numbers),
            Phase::Coordinates => coordinates::byte(judge, case as u8, numbers),
            Phase::DrawnCoordinates => coordinates::drawn(judge, numbers),
            Phase::EachUnit => texts::byte(judge, case as u8, numbers),
            Phase::Texts => texts::drawn(judge, numbers),
            Phase::EachSize => indexes::size(judge, case, numbers),
            Phase::EachBlock => indexes::block(judge, case, numbers),
            Phase::Indexes => indexes::drawn(judge, numbers),
            Phase::DamagedIndexes => indexes::damaged(judge, numbers),
            Phase::EachHop => hops::each(judge, case, numbers),
            Phase::Hops => hops::drawn(judge, numbers),
        }
    }

    /// Runs a case that starts from a sheet that is right.
    fn with_sheet(self, judge: &mut Judge, numbers: &mut Numbers) {
        let made = a_sheet(judge, numbers);
        if self == Phase::DamagedSheets {
            return damaged_sheet(judge, &made, numbers);
        }
        let year = not_before(numbers, made.year);
        match self {
            Phase::EachBit => each::bits(judge, &made, year, numbers),
            Phase::EachCut => each::cuts(judge, &made, year, numbers),
            _ => {
                judge.note("undamaged".into());
                reads(judge, &made.sheet, year, numbers);
            }
        }
    }

    /// Runs a case that starts from a table that is right.
    fn with_table(self, judge: &mut Judge, numbers: &mut Numbers) {
        let (year, head, table) = a_table(judge, numbers);
        if self == Phase::DamagedTables {
            return damaged_table(judge, year, head, table, numbers);
        }
        let year = not_before(numbers, year);
        if self == Phase::EachNumber {
            return each::table_numbers(judge, &head, &table, year, numbers);
        }
        judge.note("undamaged".into());
        let years = with_others(numbers, year);
        judge.writes(&head, &table, &years, numbers);
    }
}

/// What every generalisation byte says under these flags.
fn visibilities(judge: &mut Judge, flags: u8) {
    for byte in 0..=255 {
        judge.visibility(flags, byte);
    }
    judge.accepted = true;
}

fn a_sheet(judge: &mut Judge, numbers: &mut Numbers) -> Made {
    let year = setting(numbers);
    let made = small_sheet(numbers, year);
    let length = made.sheet.len();
    judge.note(format!("a sheet of {length} bytes for {year}"));
    made
}

fn a_table(judge: &mut Judge, numbers: &mut Numbers) -> (u32, Head, Table) {
    let year = setting(numbers);
    let head = head(numbers, year);
    let sizes = small(numbers);
    let table = table(numbers, year, sizes);
    let length = table.numbers.len();
    judge.note(format!("a table of {length} numbers for {year}"));
    (year, head, table)
}

/// A setting at which nothing made for this one is too new.
pub(crate) fn not_before(numbers: &mut Numbers, year: u32) -> u32 {
    let from = SETTINGS.iter().position(|&setting| setting >= year);
    numbers.pick(&SETTINGS[from.unwrap_or(SETTINGS.len() - 1)..])
}

/// The setting to ask at after damage: mostly one at which nothing was too
/// new before it.
fn after_damage(numbers: &mut Numbers, year: u32) -> u32 {
    if numbers.chance(4, 5) {
        not_before(numbers, year)
    } else {
        setting(numbers)
    }
}

/// This year, another setting, often the first, and one time in four a year
/// that is none.
fn with_others(numbers: &mut Numbers, year: u32) -> Vec<u32> {
    let other = numbers.pick(&SETTINGS);
    let mut years = vec![year, numbers.pick(&[1999, other, other])];
    if numbers.chance(1, 4) {
        years.push(numbers.pick(&NO_SETTINGS));
    }
    years
}

/// Reads at a year with all care, at another setting with some, at the others
/// for the refusals alone, and sometimes at years that are no settings.
fn reads(judge: &mut Judge, sheet: &[u8], year: u32, numbers: &mut Numbers) {
    let other = numbers.pick(&SETTINGS);
    let mut years = vec![(year, Care::Whole), (other, Care::Once)];
    for setting in SETTINGS {
        if setting != year && setting != other {
            years.push((setting, Care::Check));
        }
    }
    if numbers.chance(1, 4) {
        years.push((numbers.pick(&NO_SETTINGS), Care::Once));
    }
    judge.reads(sheet, &years, numbers);
}

pub(crate) fn damaged_sheet(judge: &mut Judge, made: &Made, numbers: &mut Numbers) {
    let (sheet, notes) = sheet_damage::damage(numbers, made, &places(&made.table));
    judge.notes.extend(notes);
    let year = after_damage(numbers, made.year);
    reads(judge, &sheet, year, numbers);
}

pub(crate) fn damaged_table(judge: &mut Judge, year: u32, mut head: Head, mut table: Table, numbers: &mut Numbers) {
    let notes = table_damage::damage(numbers, &mut head, &mut table);
    judge.notes.extend(notes);
    let year = after_damage(numbers, year);
    let years = with_others(numbers, year);
    judge.writes(&head, &table, &years, numbers);
}

/// How many numbers the values of items are tried with.
const VALUES: u64 = 384;

/// The value of one number for all types and scales: each bit alone, each
/// run of ones, short ones, doubles that are NaNs or infinite, then any.
fn values(judge: &mut Judge, numbers: &mut Numbers, case: u64) {
    let any = numbers.any();
    let bits = match case {
        0..=63 => 1 << case,
        64..=127 => u64::MAX >> (case - 64),
        128..=191 => u64::MAX << (case - 128),
        192 => 0,
        193..=207 => any & 0xFFFF,
        208..=223 => any & 0xFFFF_FFFF,
        224..=319 => any | 0x7FF0_0000_0000_0000,
        320..=323 => 0xFFF0_0000_0000_0000 | 7 >> (case - 320),
        _ => any,
    };
    judge.note(format!("bits {bits:#x}"));
    for kind in 0..=255 {
        for scale in 0..=255 {
            judge.value(kind, scale, bits);
        }
    }
    judge.accepted = true;
}

/// A table with some of its eight slices empty, written; and a sheet, empty
/// or not, unfolded into slices of which some are empty.
fn empty(judge: &mut Judge, numbers: &mut Numbers, case: u64) {
    let year = setting(numbers);
    let made = small_sheet(numbers, year);
    let is_empty = |slice: u64| case >> slice & 1 == 1;
    let Made { mut head, mut table, mut sheet, .. } = made;
    let texts = [&mut head.date, &mut head.designation, &mut head.title, &mut head.designation2];
    for (slice, text) in texts.into_iter().enumerate() {
        if is_empty(slice as u64) {
            *text = Vec::new();
        }
    }
    if is_empty(4) {
        table.numbers = Vec::new();
    }
    if is_empty(5) {
        table.elements = Vec::new();
    }
    if is_empty(6) {
        table.bytes = Vec::new();
    }
    judge.note(format!("slices left empty: {case:#b}"));
    let due = second::write(year, &head, &table, usize::MAX);
    let room = if is_empty(7) { 0 } else { 4096 };
    judge.write(year, &head, &table, room, &due);
    judge.writes(&head, &table, &[year, 0], numbers);
    if is_empty(8) {
        sheet = Vec::new();
    }
    let due = second::read(&sheet, year);
    for rooms in 0..8 {
        let of = |slice: usize| if rooms >> slice & 1 == 1 { 0 } else { 4096 };
        judge.unfold(&sheet, year, &due, [of(0), of(1), of(2)]);
    }
    reads(judge, &sheet, year, numbers);
}
