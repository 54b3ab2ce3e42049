//! Times checking and unfolding on sheets of 64 MiB beside sheets of 16 MiB, all of 8-byte elements, and a plain copy of both, which tells what the
//! memory itself does. Four of the short ones, which have as many bytes as the long one, are gone over before it, so that the processor's caches hold no
//! more of what is timed where the sheets are short. In a round each has its turn, and each sheet has memory of its own, which was touched before. It
//! ends with 1 if a figure is not what is required:
//!
//!     (cd crates/sxf && rt lib) && cargo run --release --manifest-path rust/Cargo.toml -p measure -- lengths
use crate::sheets::{self, Kind};
use crate::{milliseconds, verdict};
use std::hint::black_box;
use sxf::table::unfold_into;
use sxf::{Setting, Table, LIMIT};

const ROUNDS: usize = 60;

const SETTING: Setting = Setting::Y2017;

/// The kinds of points whose elements are of 8 bytes.
const KINDS: [&Kind; 2] = [&sheets::KINDS[0], &sheets::KINDS[1]];

/// How many times as long as a byte of a short sheet a byte of a long one may take.
const ALLOWED: f64 = 1.2;

/// A sheet, and room for a copy of it and for its table.
#[derive(Clone)]
struct Lent {
    sheet: Vec<u8>,
    copy: Vec<u8>,
    table: Table,
}

impl Lent {
    fn copy(&mut self) {
        black_box(&mut self.copy).copy_from_slice(black_box(&self.sheet));
    }

    fn check(&mut self) {
        let _ = black_box(sxf::check(black_box(&self.sheet), SETTING));
    }

    fn unfold(&mut self) {
        let Table { numbers, elements, bytes } = &mut self.table;
        let _ = black_box(unfold_into(black_box(&self.sheet), SETTING, numbers, elements, bytes));
    }
}

/// What is done with a sheet.
type Work = fn(&mut Lent);

/// What is timed. The copy is there to be compared with, and has no figure that is required.
const WORKS: [(&str, Work); 3] = [("copy", Lent::copy), ("check", Lent::check), ("unfold", Lent::unfold)];

/// So many sheets of at most so many bytes.
fn lent(count: usize, length: usize, kind: &Kind, points: usize) -> Vec<Lent> {
    let sheet = sheets::make_within(length, kind, points, || 0);
    let sizes = sxf::check(&sheet, SETTING).expect("the sheet is accepted");
    let table = Table { numbers: vec![1; sizes.numbers], elements: vec![1; sizes.elements], bytes: vec![1; sizes.bytes] };
    vec![Lent { copy: vec![1; sheet.len()], sheet, table }; count]
}

/// What a byte takes in picoseconds when all these sheets are gone over.
fn picoseconds(sheets: &mut [Lent], work: Work) -> f64 {
    let bytes: usize = sheets.iter().map(|lent| lent.sheet.len()).sum();
    milliseconds(|| sheets.iter_mut().for_each(work)) * 1e9 / bytes as f64
}

/// The best of all rounds, and the median.
fn best_and_median(mut times: Vec<f64>) -> [f64; 2] {
    times.sort_by(f64::total_cmp);
    [times[0], times[times.len() / 2]]
}

/// What a byte takes of the short sheets, of the long one, and how many times as long that is; by the best rounds, and by the median.
fn beside(short: &mut [Lent], long: &mut [Lent], work: Work) -> [[f64; 2]; 3] {
    let (mut of_short, mut of_long) = (Vec::new(), Vec::new());
    for _ in 0..ROUNDS {
        of_short.push(picoseconds(short, work));
        of_long.push(picoseconds(long, work));
    }
    let (short, long) = (best_and_median(of_short), best_and_median(of_long));
    [short, long, [long[0] / short[0], long[1] / short[1]]]
}

fn is_unfolded(kind: &Kind, sheets: &[Lent]) -> bool {
    sheets.iter().all(|lent| sheets::last_agrees(kind, &lent.sheet, &lent.table.elements))
}

/// Prints a row of the table: how many times as long the long sheet takes, by the best rounds, for each work.
fn row(kind: &Kind, points: usize) -> [f64; WORKS.len()] {
    let (mut short, mut long) = (lent(LIMIT / sheets::LENGTH, sheets::LENGTH, kind, points), lent(1, LIMIT, kind, points));
    let times = WORKS.map(|(_, work)| beside(&mut short, &mut long, work));
    assert!(is_unfolded(kind, &short) && is_unfolded(kind, &long), "the last element unfolded is not the last one stored");
    let both = |[best, median]: [f64; 2], digits| format!("{best:.digits$}, {median:.digits$}");
    let columns = times.map(|[short, long, ratio]| format!("{} | {} | {}", both(short, 0), both(long, 0), both(ratio, 2)));
    println!("| {} | {points} | {} |", kind.name, columns.join(" | "));
    times.map(|[_, _, [best, _]]| best)
}

/// Prints the table, and tells whether every figure is what is required.
pub fn time() -> bool {
    println!("Picoseconds a byte, the best of {ROUNDS} rounds and the median.\n");
    let columns = WORKS.map(|(work, _)| format!("{work}, 16 MiB | {work}, 64 MiB | times as long"));
    println!("| elements | points in a record | {} |", columns.join(" | "));
    println!("|---|---|{}", "---|".repeat(3 * WORKS.len()));
    let mut longest = [0f64; WORKS.len()];
    for kind in KINDS {
        for points in [65_000, 100, 10, 1] {
            let ratios = row(kind, points);
            longest = std::array::from_fn(|work| longest[work].max(ratios[work]));
        }
    }
    let [_, check, unfold] = longest;
    let met = [check, unfold].map(|longest| longest <= ALLOWED);
    println!("\nchecking: at most {check:.2} times as long a byte, by the best rounds; {ALLOWED} is allowed, {}", verdict(met[0]));
    println!("unfolding: at most {unfold:.2} times as long a byte, by the best rounds; {ALLOWED} is allowed, {}", verdict(met[1]));
    met == [true; 2]
}
