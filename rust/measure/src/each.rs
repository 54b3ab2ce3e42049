//! Holds every byte of each coding, and every unit of UTF-16, against glibc's `iconv`, one by one, and prints how many differ. It ends with 1 if
//! any does. It is no part of the gate, and is run by hand:
//!
//!     (cd crates/sxf && rt lib) && cargo run --release --manifest-path rust/Cargo.toml -p measure -- texts --each
use crate::iconv::{Iconv, Unit};
use crate::texts::{Coding, CODINGS};
use std::fmt::LowerHex;
use sxf_sys::lent::{from_utf16, to_utf16};
use sxf_sys::refusals::{NO_CHARACTER, OK};
use sxf_sys::Written;

/// glibc's numbers for a text that it cannot turn, and for one that ends early: the first half of a surrogate pair is one, without the second.
const EILSEQ: i32 = 84;
const EINVAL: i32 = 22;

/// How many were turned by both, refused by both, and neither.
#[derive(Default)]
struct Count {
    turned: usize,
    refused: usize,
    differ: usize,
}

impl Count {
    fn add<T: LowerHex, U: LowerHex + PartialEq>(&mut self, coding: &Coding, given: T, ours: Option<U>, iconv: Option<U>) {
        match (ours, iconv) {
            (None, None) => self.refused += 1,
            (Some(ours), Some(iconv)) if ours == iconv => self.turned += 1,
            (ours, iconv) => {
                let shown = |answer: Option<U>| answer.map_or("no character".into(), |unit| format!("{unit:#x}"));
                println!("{} {given:#x}: {}, by iconv {}", coding.shown(), shown(ours), shown(iconv));
                self.differ += 1;
            }
        }
    }
}

/// What the archive answers for one byte or unit.
fn ours<U: Unit>(answer: Written, written: U) -> Option<U> {
    match (answer.number, answer.length) {
        (OK, 1) => Some(written),
        (NO_CHARACTER, 0) => None,
        _ => panic!("{answer:?}"),
    }
}

/// What glibc answers for it.
fn by_iconv<T: Unit, U: Unit + Default>(iconv: &mut Iconv, given: T) -> Option<U> {
    let mut written = [U::default()];
    match iconv.turn(&[given], &mut written) {
        Ok(1) => Some(written[0]),
        Err(error) if matches!(error.raw_os_error(), Some(EILSEQ | EINVAL)) => None,
        other => panic!("{other:?}"),
    }
}

fn each_byte(coding: &Coding) -> Count {
    let mut count = Count::default();
    let mut iconv = coding.iconv_there();
    for byte in 0..=u8::MAX {
        let mut unit = [0];
        let answer = to_utf16(coding.number, &[byte], &mut unit);
        count.add(coding, byte, ours(answer, unit[0]), by_iconv(&mut iconv, byte));
    }
    count
}

fn each_unit(coding: &Coding) -> Count {
    let mut count = Count::default();
    let mut iconv = coding.iconv_back();
    for unit in 0..=u16::MAX {
        let mut byte = [0];
        let answer = from_utf16(coding.number, &[unit], &mut byte);
        count.add(coding, unit, ours(answer, byte[0]), by_iconv(&mut iconv, unit));
    }
    count
}

/// Prints the table, and tells whether nothing differs.
pub fn hold() -> bool {
    let mut differ = 0;
    let mut rows = Vec::new();
    for coding in CODINGS {
        let (bytes, units) = (each_byte(&coding), each_unit(&coding));
        differ += bytes.differ + units.differ;
        let numbers = [bytes.turned, bytes.refused, bytes.differ, units.turned, units.refused, units.differ];
        rows.push(format!("| {} | {} |", coding.shown(), numbers.map(|number| number.to_string()).join(" | ")));
    }
    println!("| coding | bytes turned by both | refused by both | differ | units turned by both | refused by both | differ |");
    println!("|---|---|---|---|---|---|---|");
    println!("{}", rows.join("\n"));
    println!("\n{differ} differ from iconv");
    differ == 0
}
