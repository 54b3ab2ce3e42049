//! Times a code index beside what goes without one, on a sheet of 16 MiB: building it beside unfolding the sheet, and selecting
//! through it beside selecting from the sheet. Each figure is the best of many rounds, and in a round each of the five has its turn. Both
//! selections must be the same, and hit as many records as have the code.
//!
//!     (cd crates/sxf && rt lib) && cargo run --release --manifest-path rust/Cargo.toml -p measure -- index
use crate::random::Random;
use crate::{milliseconds, sheets, verdict};
use std::hint::black_box;
use sxf::index::index_length;
use sxf::table::unfold_into;
use sxf::{Setting, Sizes};
use sxf_sys::index::PICK_WIDTH;
use sxf_sys::{lent, Written};

const ROUNDS: usize = 60;

const SETTING: Setting = Setting::Y2017;

/// How many points a record has. They are of two elements of 8 bytes each.
const POINTS: usize = 10;

/// How many codes the records are drawn from, so that about one in a hundred has the one that is asked for.
const CODES: u64 = 100;

/// How many times as fast as from the sheet a selection through the index has to be.
const REQUIRED: f64 = 8.0;

/// How many times as long as unfolding the sheet building the index may take.
const ALLOWED: f64 = 1.0;

/// A selection that is timed.
struct Case {
    name: &'static str,
    /// The codes of the sheet's records are drawn below this.
    codes: u64,
    /// The code that is asked for.
    code: u32,
}

const CASES: [Case; 3] = [
    Case { name: "one in a hundred", codes: CODES, code: 37 },
    Case { name: "none", codes: CODES, code: CODES as u32 },
    Case { name: "all", codes: 1, code: 0 },
];

/// A sheet whose records have drawn codes, and how many of them have the code that is asked for.
fn draw(case: &Case) -> (Vec<u8>, usize) {
    let (mut random, mut hits) = (Random(1), 0);
    let sheet = sheets::make_coded(&sheets::KINDS[0], POINTS, || {
        let code = random.below(case.codes) as u32;
        hits += usize::from(code == case.code);
        code
    });
    (sheet, hits)
}

/// The best time of each work in milliseconds.
struct Best {
    check: f64,
    unfold: f64,
    build: f64,
    by_index: f64,
    by_sheet: f64,
}

impl Best {
    /// How many times as fast as from the sheet a selection through the index is.
    fn times_as_fast(&self) -> f64 {
        self.by_sheet / self.by_index
    }

    /// How many times as long as unfolding building takes.
    fn times_as_long(&self) -> f64 {
        self.build / self.unfold
    }
}

fn measure(sheet: &[u8], sizes: &Sizes, code: u32, hits: usize) -> Best {
    let year = SETTING.year();
    let (mut numbers, mut elements, mut bytes) = (vec![1u64; sizes.numbers], vec![1u64; sizes.elements], vec![1u8; sizes.bytes]);
    let mut index = vec![1u8; index_length(sizes.records)];
    let (mut by_index, mut by_sheet) = (vec![1u64; PICK_WIDTH * sizes.records], vec![2u64; PICK_WIDTH * sizes.records]);
    let mut best = Best { check: f64::MAX, unfold: f64::MAX, build: f64::MAX, by_index: f64::MAX, by_sheet: f64::MAX };
    for _ in 0..ROUNDS {
        best.check = best.check.min(milliseconds(|| {
            let _ = black_box(sxf::check(black_box(sheet), SETTING));
        }));
        best.unfold = best.unfold.min(milliseconds(|| {
            let _ = black_box(unfold_into(black_box(sheet), SETTING, &mut numbers, &mut elements, &mut bytes));
        }));
        best.build = best.build.min(milliseconds(|| {
            black_box(lent::index_build(black_box(sheet), year, &mut index));
        }));
        best.by_index = best.by_index.min(milliseconds(|| {
            black_box(lent::index_select(black_box(&index), code, &mut by_index));
        }));
        best.by_sheet = best.by_sheet.min(milliseconds(|| {
            black_box(lent::select(black_box(sheet), year, code, &mut by_sheet));
        }));
    }
    let length = PICK_WIDTH * hits;
    let due = Written { length: length as u64, ..Written::default() };
    assert_eq!([lent::index_select(&index, code, &mut by_index), lent::select(sheet, year, code, &mut by_sheet)], [due, due]);
    assert!(by_index[..length] == by_sheet[..length], "what is selected through the index is not what is selected from the sheet");
    best
}

/// Prints the table, and how far the ratios are from what is required.
pub fn time() {
    println!(
        "| hits | of records | check, ms | unfold | build | select through the index | select from the sheet | times as fast through the index | \
         build, in times unfold |"
    );
    println!("|---|---|---|---|---|---|---|---|---|");
    let mut told = Vec::new();
    let mut longest = 0f64;
    for case in CASES {
        let (sheet, hits) = draw(&case);
        let sizes = sxf::check(&sheet, SETTING).expect("the sheet is accepted");
        let best = measure(&sheet, &sizes, case.code, hits);
        let (fast, long) = (best.times_as_fast(), best.times_as_long());
        println!(
            "| {hits} | {} | {:.2} | {:.2} | {:.2} | {:.3} | {:.2} | {fast:.1} | {long:.2} |",
            sizes.records, best.check, best.unfold, best.build, best.by_index, best.by_sheet
        );
        let met = verdict(fast >= REQUIRED);
        told.push(format!("{}: {fast:.1} times as fast through the index; {REQUIRED:.1} times is required, {met}", case.name));
        longest = longest.max(long);
    }
    println!("\n{}", told.join("\n"));
    println!(
        "building takes at most {longest:.2} times as long as unfolding; {ALLOWED:.1} is allowed, {}",
        verdict(longest <= ALLOWED)
    );
}
