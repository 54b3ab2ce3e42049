//! Sheets with old letters after the first zero of a text field, and the same with these cleared, both read by GDAL: features, layers
//! and metadata side by side; and the texts that GDAL tells, beside the archive's.

use crate::bases::{self, Base};
use crate::damage::put_sum_right;
use crate::gdal::{self, Feature, Gdal};
use crate::scratch::Scratch;
use crate::SETTING;
use std::collections::BTreeSet;
use std::fmt::Debug;
use sxf::fields::{descriptor, passport, Field};
use sxf::{Head, Sheet};

/// How many records a sheet has.
const RECORDS: usize = 40;

const FIELDS: [(&str, Field); 4] = [
    ("the date", passport::DATE),
    ("the designation", passport::DESIGNATION),
    ("the title", passport::TITLE),
    ("the descriptor's designation", descriptor::DESIGNATION),
];

/// How a text field came to have old letters.
#[derive(Clone, Copy)]
enum Left {
    /// One letter stands in the last byte.
    Last,
    /// Letters stand in every byte after the text's zero.
    All,
    /// The text was longer: a zero stands in its middle.
    Cut,
}

const LEFT: [(&str, Left); 3] = [
    ("one letter in the field's last byte", Left::Last),
    ("letters up to the field's end", Left::All),
    ("the second half of a longer text", Left::Cut),
];

impl Left {
    /// Leaves old letters in a field with a text that is neither empty nor fills it.
    fn leave(self, field: &mut [u8]) {
        let text_length = field.iter().take_while(|&&byte| byte != 0).count();
        let last = field.len() - 1;
        match self {
            Left::Last => field[last] = b'x',
            Left::All => field[text_length + 1..].fill(b'x'),
            Left::Cut => field[text_length / 2] = 0,
        }
    }
}

/// All that GDAL gives for a sheet.
struct Given {
    features: Vec<Feature>,
    about: Vec<String>,
    /// Warnings and errors.
    said: (u64, u64),
}

fn given(gdal: &Gdal, path: &str, sheet: &[u8]) -> Given {
    std::fs::write(path, sheet).expect("room for the sheet's file");
    gdal::said();
    let features = gdal.read(path).expect("GDAL opens the sheet");
    let about = gdal.about(path).expect("GDAL opens the sheet again");
    Given { features, about, said: gdal::said() }
}

/// How many were held against each other, how many are the same, and what the others are.
#[derive(Default)]
struct Tally {
    held: usize,
    same: usize,
    others: BTreeSet<String>,
}

impl Tally {
    fn hold<T: PartialEq + Debug>(&mut self, one: &[T], other: &[T]) {
        assert_eq!(one.len(), other.len(), "{one:?} and {other:?}");
        self.held += one.len();
        for (one, other) in one.iter().zip(other) {
            if one == other {
                self.same += 1;
            } else {
                self.others.insert(format!("{one:?}, not {other:?}"));
            }
        }
    }

    fn cell(&self) -> String {
        let others: Vec<&str> = self.others.iter().map(String::as_str).collect();
        match self.held {
            0 => "none".to_string(),
            held if held == self.same => format!("{held}, all the same"),
            held => format!("{held}, {} THE SAME; {}", self.same, others.join("; ")),
        }
    }
}

/// What is told of sheets with old letters, held against the same with these cleared, and the texts against the archive's.
#[derive(Default)]
struct Row {
    features: Tally,
    about: Tally,
    said: Tally,
    texts: Tally,
}

impl Row {
    fn hold(&mut self, gdal: &Gdal, path: &str, dirty: &[u8]) {
        let sheet = Sheet::read(dirty, SETTING).expect("the reader takes the sheet");
        let head = sheet.head().expect("the sheet has a head");
        let cleared = sxf::write(&head, sheet.table(), SETTING).expect("the writer takes what was read");
        assert!(cleared != dirty, "the sheet has no old letters");
        let (with_tails, without) = (given(gdal, path, dirty), given(gdal, path, &cleared));
        self.features.hold(&with_tails.features, &without.features);
        self.about.hold(&with_tails.about, &without.about);
        self.said.hold(&[with_tails.said], &[without.said]);
        let of_text = |line: &&String| line.starts_with("SHEET=") || line.starts_with("SHEET_NAME=");
        let theirs: Vec<String> = with_tails.about.iter().filter(of_text).cloned().collect();
        let text = |bytes: &[u8]| Head::CODING.string(bytes).expect("characters of the coding");
        let ours = [format!("SHEET={}", text(head.designation)), format!("SHEET_NAME={}", text(head.title))];
        self.texts.hold(&theirs, &ours);
    }

    fn print(&self, name: &str, how: &str, sheets: usize) {
        let cells = [&self.features, &self.about, &self.said, &self.texts].map(Tally::cell).join(" | ");
        println!("| {name} | {how} | {sheets} | {cells} |");
    }
}

/// The sheets of a row: these fields of each have old letters.
fn dirty(base: &Base, fields: &[(&str, Field)], left: Left) -> Vec<u8> {
    let mut sheet = base.sheet.write();
    fields.iter().for_each(|(_, field)| left.leave(&mut sheet[field.range()]));
    put_sum_right(&mut sheet);
    sheet
}

pub fn run(gdal: &Gdal) {
    let scratch = Scratch::new();
    let path = scratch.path("tails.sxf");
    let bases = bases::all(RECORDS);
    println!("| old letters in | which | sheets | features | about layers and the sheet | warnings and errors | designation and title as ours |");
    println!("|---|---|---|---|---|---|---|");
    let each = FIELDS.iter().map(|field| (field.0, std::slice::from_ref(field)));
    for (name, fields) in each.chain([("all four", &FIELDS[..])]) {
        for (how, left) in LEFT {
            let mut row = Row::default();
            bases.iter().for_each(|base| row.hold(gdal, &path, &dirty(base, fields, left)));
            row.print(name, how, bases.len());
        }
    }
}
