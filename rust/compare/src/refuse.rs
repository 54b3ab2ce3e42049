//! Sheets that the archive refuses, each for one reason, and what GDAL makes of them.

use crate::child::{ask_gdal, End};
use crate::damage::put_sum_right;
use crate::scratch::Scratch;
use crate::sheets::{Record, Sheet};
use crate::SETTING;
use sxf::fields::{descriptor, header, passport, START};

/// Where the second record of a sheet starts whose first has one point of two 8-byte elements.
const SECOND: usize = START + header::SIZE + 16;

/// A sheet of two records, a point and a line, with a change of its bytes; the sum is put right afterwards, unless it is what is wrong.
fn cases() -> Vec<(&'static str, Vec<u8>)> {
    let point = Record::new(2, &[[1.5, 2.5, 0.0]]);
    let line = Record::new(0, &[[1.0, 2.0, 0.0], [3.0, 4.0, 0.0]]);
    let plain = Sheet::real(vec![point.clone(), line.clone()]).write();
    let changed = |change: &dyn Fn(&mut Vec<u8>)| {
        let mut sheet = plain.clone();
        change(&mut sheet);
        put_sum_right(&mut sheet);
        sheet
    };
    let mut wrong_sum = plain.clone();
    wrong_sum[passport::SUM.place] ^= 1;
    let graphics = [0xFE, 0x7F, 0xFF, 0x7F, 24, 0, 0, 0, 1, 0, 0, 0, 12, 0, 128, 0, 255, 0, 0, 0, 100, 0, 0, 0];
    let lines = vec![Record::new(0, &[[1.0, 2.0, 0.0]; 20]); 100_000];
    vec![
        ("a wrong sum, all else right", wrong_sum),
        ("another identifier at 0", changed(&|s| s[passport::IDENTIFIER.place] = b'A')),
        ("edition 5.0", changed(&|s| s[passport::EDITION.place + 2] = 5)),
        ("a title without a zero", changed(&|s| s[passport::TITLE.range()].fill(b'x'))),
        ("a reserved bit of a record's byte 20", changed(&|s| s[header::BYTE20.at(START).place] |= 0x80)),
        ("a count of one for two records", changed(&|s| s[descriptor::COUNT.place] = 1)),
        ("a count of three for two records", changed(&|s| s[descriptor::COUNT.place] = 3)),
        ("three bytes after the last record", changed(&|s| s.extend_from_slice(b"xyz"))),
        ("a metric length that says 8 bytes more", changed(&|s| s[header::METRIC.at(SECOND).place] += 8)),
        (
            "a record with graphics, which this library does not carry",
            changed(&|s| {
                s[header::TOTAL.at(SECOND).place] += graphics.len() as u8;
                s[header::METRIC.at(SECOND).place] += graphics.len() as u8;
                s[header::BYTE22.at(SECOND).place] |= 16;
                s.extend_from_slice(&graphics);
            }),
        ),
        ("a good sheet of more than 64 MiB", long(&lines)),
    ]
}

/// A sheet over the limit: the records of two sheets under one head.
fn long(lines: &[Record]) -> Vec<u8> {
    let half = Sheet::real(lines.to_vec()).write();
    let mut sheet = [&half[..], &half[START..]].concat();
    sheet[descriptor::COUNT.range()].copy_from_slice(&(2 * lines.len() as u32).to_le_bytes());
    put_sum_right(&mut sheet);
    sheet
}

pub fn run() {
    let scratch = Scratch::new();
    let path = scratch.path("refused.sxf");
    println!("| the sheet has | this library | GDAL |\n|---|---|---|");
    for (name, sheet) in cases() {
        std::fs::write(&path, &sheet).expect("room for the sheet's file");
        let ours = sxf::check(&sheet, SETTING).expect_err("the reader refuses the sheet");
        let theirs = match ask_gdal(&path) {
            End::Died(signal) => format!("dies, signal {signal}"),
            End::Hung => "hangs".to_string(),
            End::Answered(seen) if !seen.opened => "refuses".to_string(),
            End::Answered(seen) => {
                let said = if seen.warnings + seen.errors == 0 { "silently" } else { "with an error" };
                format!("opens it {said}, features: {}", seen.features)
            }
        };
        println!("| {name} | {} {} at {} | {theirs} |", ours.number, ours.name(), ours.place);
    }
}
