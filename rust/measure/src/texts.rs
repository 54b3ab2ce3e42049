//! Times text of the three codings that is turned to UTF-16 and back beside glibc's `iconv`, in the same run, each into memory that is at hand.
//! Each figure is the best of the rounds, and in a round each of the four has its turn. Both must give the same units and the same bytes.
//!
//!     (cd crates/sxf && rt lib) && cargo run --release --manifest-path rust/Cargo.toml -p measure -- texts
use crate::iconv::Iconv;
use crate::milliseconds;
use crate::random::Random;
use std::ffi::CStr;
use std::hint::black_box;
use std::ops::RangeInclusive;
use sxf_sys::codings::{DOS, KOI8, WINDOWS};
use sxf_sys::lent::{from_utf16, to_utf16};

const ROUNDS: usize = 9;

/// How many bytes a text has: 16 MiB.
const LENGTH: usize = 16 << 20;

/// How many times as fast as `iconv` turning there, and turning back, has to be.
const REQUIRED: [f64; 2] = [3.0, 2.0];

/// A coding, and what glibc calls it.
pub struct Coding {
    pub number: u32,
    pub name: &'static CStr,
}

pub const CODINGS: [Coding; 3] =
    [Coding { number: DOS, name: c"CP866" }, Coding { number: WINDOWS, name: c"CP1251" }, Coding { number: KOI8, name: c"KOI8-R" }];

impl Coding {
    pub fn shown(&self) -> &'static str {
        self.name.to_str().expect("a name in ASCII")
    }

    /// glibc's way to UTF-16, as x86-64 has it in memory.
    pub fn iconv_there(&self) -> Iconv {
        Iconv::open(self.name, c"UTF-16LE").expect("glibc has the coding")
    }

    /// Its way back.
    pub fn iconv_back(&self) -> Iconv {
        Iconv::open(c"UTF-16LE", self.name).expect("glibc has the coding")
    }
}

/// One of these letters.
fn letter(random: &mut Random, letters: RangeInclusive<char>) -> u16 {
    let (first, last) = (u64::from(*letters.start()), u64::from(*letters.end()));
    (first + random.below(last - first + 1)) as u16
}

/// Words of Russian letters, of which one in eight is in capitals and three in eight begin with one, and numbers, with spaces between them.
fn draw() -> Vec<u16> {
    let mut random = Random(1);
    let mut units = Vec::with_capacity(LENGTH);
    while units.len() < LENGTH {
        let kind = random.below(10);
        for place in 0..=random.below(12) {
            units.push(match kind {
                0 | 1 => letter(&mut random, '0'..='9'),
                2 => letter(&mut random, 'А'..='Я'),
                3..=5 if place == 0 => letter(&mut random, 'А'..='Я'),
                _ => letter(&mut random, 'а'..='я'),
            });
        }
        units.push(u16::from(b' '));
    }
    units.truncate(LENGTH);
    units
}

/// The best times in milliseconds: there and back, ours and `iconv`'s.
struct Best {
    there: f64,
    iconv_there: f64,
    back: f64,
    iconv_back: f64,
}

impl Best {
    /// How many times as fast as `iconv`, there and back.
    fn ratios(&self) -> [f64; 2] {
        [self.iconv_there / self.there, self.iconv_back / self.back]
    }
}

fn measure(coding: &Coding, units: &[u16]) -> Best {
    let (mut iconv_there, mut iconv_back) = (coding.iconv_there(), coding.iconv_back());
    let mut text = vec![1u8; units.len()];
    let turned = iconv_back.turn(units, &mut text);
    assert_eq!(turned.expect("the coding has all letters"), text.len());
    let (mut there, mut there_by_iconv) = (vec![1u16; units.len()], vec![1u16; units.len()]);
    let (mut back, mut back_by_iconv) = (vec![1u8; units.len()], vec![1u8; units.len()]);
    let mut best = Best { there: f64::MAX, iconv_there: f64::MAX, back: f64::MAX, iconv_back: f64::MAX };
    for _ in 0..ROUNDS {
        best.there = best.there.min(milliseconds(|| {
            black_box(to_utf16(coding.number, black_box(&text), &mut there));
        }));
        best.iconv_there = best.iconv_there.min(milliseconds(|| {
            let _ = black_box(iconv_there.turn(black_box(&text), &mut there_by_iconv));
        }));
        best.back = best.back.min(milliseconds(|| {
            black_box(from_utf16(coding.number, black_box(units), &mut back));
        }));
        best.iconv_back = best.iconv_back.min(milliseconds(|| {
            let _ = black_box(iconv_back.turn(black_box(units), &mut back_by_iconv));
        }));
    }
    assert!(there == units && there_by_iconv == units, "what is turned there is not what the text was made from");
    assert!(back == text && back_by_iconv == text, "what is turned back is not the text");
    best
}

/// Prints the table, and how far the ratios are from what is required.
pub fn time() {
    let units = draw();
    let mut least = [f64::MAX; 2];
    println!("| coding | there, ms | iconv there | times as fast | back, ms | iconv back | times as fast |");
    println!("|---|---|---|---|---|---|---|");
    for coding in CODINGS {
        let best = measure(&coding, &units);
        let [there, back] = best.ratios();
        println!(
            "| {} | {:.1} | {:.1} | {there:.1} | {:.1} | {:.1} | {back:.1} |",
            coding.shown(),
            best.there,
            best.iconv_there,
            best.back,
            best.iconv_back
        );
        least = [least[0].min(there), least[1].min(back)];
    }
    println!();
    for ((way, least), required) in ["there", "back"].into_iter().zip(least).zip(REQUIRED) {
        let met = if least >= required { "met" } else { "MISSED" };
        println!("{way} at least {least:.1} times as fast as iconv; {required:.1} times is required, {met}");
    }
}
