//! Times hopping from header to header. Finding the frame, where it is the first record, is timed on sheets of four lengths, since it must not
//! take longer on a longer sheet. Hopping over all headers is timed beside checking the same sheet. In a round each of the two is run a few times in a
//! row, so that it is also timed over what it left in the processor's caches itself, and not only over what the other did. Each figure is the best of
//! many rounds, and what is found must be what the sheet was made with. It ends with 1 if a figure is not what is required:
//!
//!     (cd crates/sxf && rt lib) && cargo run --release --manifest-path rust/Cargo.toml -p measure -- hop
use crate::sheets::{self, Kind};
use crate::{milliseconds, verdict};
use std::hint::black_box;
use sxf::fields::START;
use sxf::{Setting, LIMIT};
use sxf_sys::{lent, Hop};

const ROUNDS: usize = 200;

/// How often checking, and then hopping, is timed in a round.
const IN_A_ROW: usize = 4;

/// How many calls a round has where one is too short to be timed.
const CALLS: usize = 10_000;

const SETTING: Setting = Setting::Y2017;

/// Points of two elements of 8 bytes each.
const KIND: &Kind = &sheets::KINDS[0];

/// How many points a record of the sheets has whose frame is found.
const POINTS: usize = 10;

const MEBIBYTE: usize = 1 << 20;

/// What finding the frame as the first record may take at most, in nanoseconds.
const ALLOWED: f64 = 1_000.0;

/// A code that no record has: all have 0.
const NO_CODE: u32 = 1;

/// A sheet whose headers are all hopped over.
struct Case {
    /// How many points a record has.
    points: usize,
    /// How many records then fill 16 MiB.
    records: usize,
    /// How many times as fast as checking the sheet it has to be.
    required: f64,
}

const CASES: [Case; 2] =
    [Case { points: 10, records: 87_378, required: 3.0 }, Case { points: 100, records: 10_279, required: 10.0 }];

/// The best time of finding the frame, in nanoseconds a call. Its code in the passport is 0, and so is that of every record: the first is it.
fn nanoseconds_to_frame(sheet: &[u8]) -> f64 {
    let total = sheets::total(KIND, POINTS) as u64;
    assert_eq!(lent::frame_of(sheet), Hop { found: 1, at: START as u64, total, looked: 1, ..Hop::default() });
    let round = || {
        milliseconds(|| {
            for _ in 0..CALLS {
                black_box(lent::frame_of(black_box(sheet)));
            }
        })
    };
    let best = (0..ROUNDS).map(|_| round()).fold(f64::MAX, f64::min);
    best * 1e6 / CALLS as f64
}

/// Times the frame on sheets of four lengths, and tells whether all are as fast as is required.
fn time_frames() -> bool {
    println!("| sheet, bytes | records | finding the frame, ns |");
    println!("|---|---|---|");
    let mut longest = 0f64;
    for length in [LIMIT, sheets::LENGTH, MEBIBYTE, START + sheets::total(KIND, POINTS)] {
        let sheet = sheets::make_within(length, KIND, POINTS, || 0);
        let sizes = sxf::check(&sheet, SETTING).expect("the sheet is accepted");
        let taken = nanoseconds_to_frame(&sheet);
        println!("| {} | {} | {taken:.1} |", sheet.len(), sizes.records);
        longest = longest.max(taken);
    }
    let met = longest < ALLOWED;
    println!("\nfinding the frame takes at most {longest:.1} ns; under {ALLOWED} is required, {}", verdict(met));
    met
}

/// The best times of checking a sheet and of hopping over all its headers, in milliseconds.
fn check_and_hop(sheet: &[u8]) -> (f64, f64) {
    let check = || {
        black_box(lent::check(black_box(sheet), SETTING.year()));
    };
    let hop = || {
        black_box(lent::first_with(black_box(sheet), NO_CODE));
    };
    let (mut checked, mut hopped) = (f64::MAX, f64::MAX);
    for _ in 0..ROUNDS {
        checked = (0..IN_A_ROW).map(|_| milliseconds(check)).fold(checked, f64::min);
        hopped = (0..IN_A_ROW).map(|_| milliseconds(hop)).fold(hopped, f64::min);
    }
    (checked, hopped)
}

/// Times hopping over all headers beside checking, and tells whether it is as fast as is required.
fn time_headers() -> bool {
    println!("| points in a record | records | check, ms | hop over all headers, ms | times as fast |");
    println!("|---|---|---|---|---|");
    let (mut told, mut all_met) = (Vec::new(), true);
    for Case { points, records, required } in CASES {
        let sheet = sheets::make(KIND, points);
        assert_eq!(sxf::check(&sheet, SETTING).expect("the sheet is accepted").records, records);
        assert_eq!(lent::first_with(&sheet, NO_CODE), Hop { looked: records as u64, ..Hop::default() });
        let (check, hop) = check_and_hop(&sheet);
        let fast = check / hop;
        println!("| {points} | {records} | {check:.2} | {hop:.3} | {fast:.1} |");
        let met = fast >= required;
        told.push(format!(
            "{records} headers: {fast:.1} times as fast as checking; {required:.1} times is required, {}",
            verdict(met)
        ));
        all_met &= met;
    }
    println!("\n{}", told.join("\n"));
    all_met
}

/// Prints both tables, and tells whether every figure is what is required.
pub fn time() -> bool {
    let frames = time_frames();
    println!();
    let headers = time_headers();
    frames && headers
}
