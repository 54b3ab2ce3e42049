//! Times a plain copy, the archive, `second` and GDAL on sheets of 16 MiB and of 64 MiB, in one run. Each figure is the best of the rounds. In a
//! round each has its turn, so that a slow spell of the machine meets all of them, and each round has an order of its own, so that none
//! always finds memory as the same other leaves it. The time is the processor's, the system's part included, so that other work on the
//! machine counts little.

use crate::gdal::Gdal;
use crate::random::Random;
use crate::scratch::Scratch;
use crate::sheets::{Record, Sheet};
use crate::SETTING;
use std::hint::black_box;
use sxf::fields::{header, START};
use sxf::table::unfold_into;
use sxf::{Sizes, Table, LIMIT};

/// How long a sheet is at most, and how many rounds it is timed in.
struct Length {
    name: &'static str,
    bytes: usize,
    rounds: usize,
}

/// The longer ones are as long as the limit allows. They have fewer rounds, each of which takes four times as long.
const LENGTHS: [Length; 2] =
    [Length { name: "16 MiB", bytes: 16 << 20, rounds: 64 }, Length { name: "64 MiB", bytes: LIMIT, rounds: 24 }];

/// How many times as fast as GDAL what is judged has to be.
const REQUIRED: f64 = 15.0;

#[derive(Clone, Copy)]
enum Timed {
    Copy,
    Floor,
    Check,
    Unfold,
    CheckUnfold,
    AskedFor,
    FromFile,
    SecondRead,
    SecondCheckRead,
    Gdal,
}

/// What is timed, in the order of the table.
const TIMED: [(Timed, &str); 10] = [
    (Timed::Copy, "copy"),
    (Timed::Floor, "floor"),
    (Timed::Check, "check"),
    (Timed::Unfold, "unfold"),
    (Timed::CheckUnfold, "check + unfold"),
    (Timed::AskedFor, "check + unfold, memory asked for"),
    (Timed::FromFile, "the same from the file"),
    (Timed::SecondRead, "`second::read`"),
    (Timed::SecondCheckRead, "`second::check` + `second::read`"),
    (Timed::Gdal, "GDAL"),
];

/// How many times as long the first takes as the second. `second` asks for memory, so its one call is held against the archive's two with
/// memory asked for between them. One call is held against one, which both check the sheet and unfold it, and two calls against two, where
/// the sizes are asked for first; the last is one call against two, into memory that is at hand.
const RATIOS: [(&str, Timed, Timed); 5] = [
    ("GDAL / (check + unfold)", Timed::Gdal, Timed::CheckUnfold),
    ("`second::read` / (check + unfold, memory asked for)", Timed::SecondRead, Timed::AskedFor),
    ("`second::read` / unfold", Timed::SecondRead, Timed::Unfold),
    ("(`second::check` + `second::read`) / (check + unfold)", Timed::SecondCheckRead, Timed::CheckUnfold),
    ("`second::read` / (check + unfold)", Timed::SecondRead, Timed::CheckUnfold),
];

/// Lines of so many points with 8-byte elements, as many as a sheet of so many bytes has room for.
fn sheet(length: usize, points: usize) -> Vec<u8> {
    let mut random = Random(1);
    let mut point = || [6_000_000.0 + 5000.0 * random.unit(), 7_500_000.0 + 5000.0 * random.unit(), 0.0];
    let count = (length - START) / (header::SIZE + 16 * points);
    let records =
        (0..count).map(|_| Record::new(if points == 1 { 2 } else { 0 }, &(0..points).map(|_| point()).collect::<Vec<_>>()));
    Sheet::real(records.collect()).write()
}

/// The processor time of this process.
fn milliseconds() -> f64 {
    extern "C" {
        fn clock_gettime(clock: i32, seconds_and_nanoseconds: *mut [i64; 2]) -> i32;
    }
    const PROCESS: i32 = 2;
    let mut time = [0; 2];
    unsafe { clock_gettime(PROCESS, &mut time) };
    time[0] as f64 * 1e3 + time[1] as f64 / 1e6
}

/// The best times in milliseconds.
struct Best([f64; TIMED.len()]);

impl Best {
    fn time(&mut self, which: Timed, work: impl FnOnce()) {
        let start = milliseconds();
        work();
        let best = &mut self.0[which as usize];
        *best = best.min(milliseconds() - start);
    }

    fn of(&self, which: Timed) -> f64 {
        self.0[which as usize]
    }
}

/// Makes sure that an answer is worked out, though nobody looks at it.
fn keep<T>(answer: T) {
    black_box(answer);
}

/// Reads all bytes and does next to nothing with them. There are eight lanes so that no word waits for the one before it: what is waited
/// for is the memory.
fn look_at(bytes: &[u8]) -> u64 {
    let mut lanes = [0; 8];
    let (blocks, rest) = bytes.as_chunks::<64>();
    for block in blocks {
        for (lane, word) in lanes.iter_mut().zip(block.as_chunks().0) {
            *lane ^= u64::from_le_bytes(*word);
        }
    }
    lanes.into_iter().chain(rest.iter().map(|&byte| u64::from(byte))).fold(0, |all, word| all ^ word)
}

/// A sheet in memory and as a file, and memory that was touched before, for what is timed.
struct Bench<'a> {
    gdal: &'a Gdal,
    sheet: &'a [u8],
    path: &'a str,
    points: usize,
    sizes: Sizes,
    copy: Vec<u8>,
    table: Table,
}

impl<'a> Bench<'a> {
    fn new(gdal: &'a Gdal, sheet: &'a [u8], path: &'a str, points: usize) -> Bench<'a> {
        let sizes = sxf::check(sheet, SETTING).expect("the sheet is accepted");
        let table = Table { numbers: vec![1; sizes.numbers], elements: vec![1; sizes.elements], bytes: vec![1; sizes.bytes] };
        Bench { gdal, sheet, path, points, sizes, copy: vec![1; sheet.len()], table }
    }

    fn work(&mut self, which: Timed) {
        match which {
            Timed::Copy => self.copy(),
            Timed::Floor => self.floor(),
            Timed::Check => self.check(),
            Timed::Unfold => self.unfold(),
            Timed::CheckUnfold => {
                self.check();
                self.unfold();
            }
            Timed::AskedFor => keep(Table::unfold(black_box(self.sheet), SETTING)),
            Timed::FromFile => keep(Table::unfold(&std::fs::read(self.path).expect("the sheet's file"), SETTING)),
            Timed::SecondRead => self.second_read(),
            Timed::SecondCheckRead => {
                keep(second::check(black_box(self.sheet), SETTING.year()));
                self.second_read();
            }
            Timed::Gdal => self.gdal(),
        }
    }

    fn copy(&mut self) {
        black_box(&mut self.copy).copy_from_slice(black_box(self.sheet));
    }

    /// About the least that two calls can take which each sum the sheet, and one of which unfolds it too. On long parts unfolding is a
    /// copy, and one that comes after the sum: nothing may be written of a sheet that is refused.
    fn floor(&mut self) {
        keep(look_at(black_box(self.sheet)));
        keep(look_at(black_box(self.sheet)));
        self.copy();
    }

    fn check(&self) {
        keep(sxf::check(black_box(self.sheet), SETTING));
    }

    fn unfold(&mut self) {
        let Table { numbers, elements, bytes } = &mut self.table;
        keep(unfold_into(black_box(self.sheet), SETTING, numbers, elements, bytes));
    }

    fn second_read(&self) {
        keep(second::read(black_box(self.sheet), SETTING.year()));
    }

    fn gdal(&self) {
        let (features, vertices) = self.gdal.run_through(self.path);
        let records = self.sizes.records as u64;
        assert_eq!((features, vertices), (records, records * self.points as u64), "GDAL has not read all");
    }

    /// What was timed has read the same bytes to the same table.
    fn tables_agree(&self) {
        assert!(self.copy == self.sheet, "the copy is another sheet");
        let asked_for = Table::unfold(self.sheet, SETTING).expect("the sheet is unfolded");
        assert!(asked_for == self.table, "memory asked for holds something else");
        let reading = second::read(self.sheet, SETTING.year()).expect("`second` takes the sheet");
        let second::Table { numbers, elements, bytes } = reading.table;
        assert!(Table { numbers, elements, bytes } == self.table, "`second` reads something else");
    }

    /// Both checks have told the same sizes.
    fn sizes_agree(&self) {
        let second = second::check(self.sheet, SETTING.year()).expect("`second` takes the sheet");
        let second = [second.sum, second.records, second.numbers, second.elements, second.bytes];
        let Sizes { sum, records, numbers, elements, bytes } = self.sizes;
        assert_eq!(
            second.map(|size| size as usize),
            [sum as usize, records, numbers, elements, bytes],
            "`second` tells other sizes"
        );
    }
}

fn measure(bench: &mut Bench, rounds: usize) -> Best {
    let mut best = Best([f64::MAX; TIMED.len()]);
    let mut random = Random(1);
    let mut order = TIMED.map(|timed| timed.0);
    for _ in 0..rounds {
        random.shuffle(&mut order);
        for which in order {
            best.time(which, || bench.work(which));
        }
    }
    bench.tables_agree();
    bench.sizes_agree();
    best
}

fn row(cells: &[String]) {
    println!("| {} |", cells.join(" | "));
}

fn print_heading() {
    let names =
        ["sheet", "points in a record", "records"].into_iter().chain(TIMED.map(|timed| timed.1)).chain(RATIOS.map(|ratio| ratio.0));
    let names: Vec<String> = names.map(String::from).collect();
    row(&names);
    println!("|{}", "---|".repeat(names.len()));
}

/// More digits would not come out the same in another run.
fn three_digits(ratio: f64) -> String {
    let decimals = if ratio < 10.0 { 2 } else { 1 };
    format!("{ratio:.decimals$}")
}

fn print_times(length: &str, points: usize, records: usize, best: &Best) {
    let times = TIMED.map(|(which, _)| format!("{:.1}", best.of(which)));
    let ratios = RATIOS.map(|(_, of, to)| three_digits(best.of(of) / best.of(to)));
    row(&[&[length.to_string(), points.to_string(), records.to_string()][..], &times, &ratios].concat());
}

/// What has to be so many times as fast as GDAL: each of the two calls, and the two together.
const JUDGED: [(Timed, &str); 3] = [(Timed::Check, "check"), (Timed::Unfold, "unfold"), (Timed::CheckUnfold, "check + unfold")];

/// Prints a row for each count of points, and says how many times as fast as GDAL the slowest of them is.
fn time(gdal: &Gdal, path: &str, &Length { name, bytes, rounds }: &Length) -> String {
    let mut least = [f64::MAX; JUDGED.len()];
    for points in [65_000, 100, 10, 1] {
        let sheet = sheet(bytes, points);
        std::fs::write(path, &sheet).expect("room for the sheet's file");
        let mut bench = Bench::new(gdal, &sheet, path, points);
        let best = measure(&mut bench, rounds);
        print_times(name, points, bench.sizes.records, &best);
        for (least, (which, _)) in least.iter_mut().zip(JUDGED) {
            *least = least.min(best.of(Timed::Gdal) / best.of(which));
        }
    }
    let judge = |least: f64, call: &str| {
        let met = if least >= REQUIRED { "met" } else { "MISSED" };
        format!("{name}: {call} at least {least:.1} times as fast as GDAL; {REQUIRED} times is required, {met}")
    };
    least.iter().zip(JUDGED).map(|(&least, (_, call))| judge(least, call)).collect::<Vec<_>>().join("\n")
}

pub fn run(gdal: &Gdal) {
    let scratch = Scratch::new();
    let path = scratch.path("timed.sxf");
    let rounds = LENGTHS.map(|length| format!("{} of {}", length.rounds, length.name)).join(", ");
    println!("GDAL {}, best of the rounds ({rounds}), milliseconds of processor time.\n", gdal.version());
    print_heading();
    let told = LENGTHS.map(|length| time(gdal, &path, &length));
    println!("\n{}", told.join("\n"));
}
