//! Times checking, unfolding and writing beside a plain copy of the same bytes, in the same run. Each figure is the best of many rounds,
//! and the rounds of the four go in turn, so that a slow spell of the machine meets all of them. All memory is touched before.
//!
//! `measure texts` times texts that are turned to UTF-16 and back instead, beside glibc's `iconv`, and `measure texts --each` holds each byte
//! and each unit against it. `measure index` times a code index, and selections through it and without it. `measure hop` times finding the frame, and
//! hopping over all headers beside checking the sheet. `measure lengths` holds what a byte of a sheet of 64 MiB takes against one of 16 MiB.
#![deny(unsafe_code)]

mod each;
mod hop;
// The one module that may: it calls glibc.
#[allow(unsafe_code)]
mod iconv;
mod index;
mod lengths;
mod random;
mod sheets;
mod texts;

use std::hint::black_box;
use std::process::ExitCode;
use std::time::Instant;
use sxf::table::unfold_into;
use sxf::writer::write_into;
use sxf::{Setting, Sheet, TableRef};

const ROUNDS: usize = 60;

/// How many records a sheet has, and the best time of each work on it in milliseconds.
struct Best {
    records: usize,
    copy: f64,
    check: f64,
    unfold: f64,
    write: f64,
}

fn milliseconds(work: impl FnOnce()) -> f64 {
    let start = Instant::now();
    work();
    start.elapsed().as_secs_f64() * 1e3
}

/// Whether a figure is what is required, as it is printed.
fn verdict(met: bool) -> &'static str {
    if met {
        "met"
    } else {
        "MISSED"
    }
}

fn measure(kind: &sheets::Kind, sheet: &[u8]) -> Best {
    let setting = Setting::Y2017;
    let sizes = sxf::check(sheet, setting).expect("the sheet is accepted");
    let mut numbers = vec![1u64; sizes.numbers];
    let mut elements = vec![1u64; sizes.elements];
    let mut bytes = vec![1u8; sizes.bytes];
    let mut copy = vec![1u8; sheet.len()];
    let mut written = vec![1u8; sheet.len()];
    let head = Sheet::read(sheet, setting).and_then(|sheet| sheet.head()).expect("the sheet has a head");
    let mut best = Best { records: sizes.records, copy: f64::MAX, check: f64::MAX, unfold: f64::MAX, write: f64::MAX };
    for _ in 0..ROUNDS {
        best.copy = best.copy.min(milliseconds(|| black_box(&mut copy).copy_from_slice(black_box(sheet))));
        best.check = best.check.min(milliseconds(|| {
            let _ = black_box(sxf::check(black_box(sheet), setting));
        }));
        best.unfold = best.unfold.min(milliseconds(|| {
            let _ = black_box(unfold_into(black_box(sheet), setting, &mut numbers, &mut elements, &mut bytes));
        }));
        best.write = best.write.min(milliseconds(|| {
            let table = TableRef { numbers: &numbers, elements: &elements, bytes: &bytes };
            let _ = black_box(write_into(&head, black_box(table), setting, &mut written));
        }));
    }
    assert!(sheets::last_agrees(kind, sheet, &elements), "the last element unfolded is not the last one stored");
    assert!(written == sheet, "what is written back is not the sheet");
    best
}

fn time_sheets() {
    println!("| elements | points in a record | records | copy, ms | check | unfold | check, then unfold | write |");
    println!("|---|---|---|---|---|---|---|---|");
    for kind in sheets::KINDS {
        for points in [65_000, 100, 10, 1] {
            let sheet = sheets::make(&kind, points);
            let best = measure(&kind, &sheet);
            println!(
                "| {} | {} | {} | {:.2} | {:.1} | {:.1} | {:.1} | {:.1} |",
                kind.name,
                points,
                best.records,
                best.copy,
                best.check / best.copy,
                best.unfold / best.copy,
                (best.check + best.unfold) / best.copy,
                best.write / best.copy
            );
        }
    }
}

fn main() -> ExitCode {
    let words: Vec<String> = std::env::args().skip(1).collect();
    match words.iter().map(String::as_str).collect::<Vec<_>>()[..] {
        [] => time_sheets(),
        ["texts"] => texts::time(),
        ["index"] => index::time(),
        ["texts", "--each"] => return ExitCode::from(u8::from(!each::hold())),
        ["hop"] => return ExitCode::from(u8::from(!hop::time())),
        ["lengths"] => return ExitCode::from(u8::from(!lengths::time())),
        _ => {
            eprintln!("nothing, texts, texts --each, index, hop or lengths");
            return ExitCode::from(2);
        }
    }
    ExitCode::SUCCESS
}
