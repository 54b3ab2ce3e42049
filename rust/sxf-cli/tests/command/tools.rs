//! `sxf table F | TOOL | sxf write` gives F's bytes, with tails cleared, for every tool that keeps doubles. `jq` and `python3` are Debian's, which .ci/packages installs,
//! whatever else of these names there is.
use crate::run::{on, out, sample, Folder, ACCEPTED};
use crate::{drawn, every, mark};
use second::cleared;
use std::collections::BTreeSet;
use std::fs;
use std::num::FpCategory;
use std::path::Path;
use std::process::Command;
use sxf::{ElementKind, Number, Setting, Sheet};

/// Lines as they are, every number as the tool computes with it, over several lines, with sorted keys, every character beyond ASCII as an escape
/// (`\u0413`), every integer as a double (`3.0`), and every number with 18 digits.
const TOOLS: [&str; 8] = [
    "jq -c .",
    "jq -c 'walk(if type == \"number\" then . + 0 else . end)'",
    "jq .",
    "jq -cS .",
    "python3 -c 'import json, sys; [print(json.dumps(json.loads(line))) for line in sys.stdin]'",
    "python3 -m json.tool --json-lines --sort-keys",
    "python3 -c 'import json, sys; [print(json.dumps(json.loads(line, parse_int=float))) for line in sys.stdin]'",
    r#"python3 -c 'import re, sys
printed = lambda m: m[0] if m[0][0] == "\"" else "%.17e" % float(m[0])
[print(re.sub(r"\"(?:[^\"\\]|\\.)*\"|[-+.0-9eE]+", printed, line), end="") for line in sys.stdin]'"#,
];

/// Where Debian's tools are.
const PATH: &str = "/usr/bin:/bin";

/// Sees that a sheet comes back through each tool.
fn comes_back(folder: &Folder, sheet: &Path) {
    let bytes = cleared(&fs::read(sheet).expect("a sheet"));
    for tool in TOOLS {
        let mut shell = Command::new("sh");
        shell.args(["-c", &format!("\"$SXF\" table \"$SHEET\" | {tool} | \"$SXF\" write - -o again.sxf --force")]);
        shell.env("SXF", env!("CARGO_BIN_EXE_sxf")).env("SHEET", sheet).env("PATH", PATH).current_dir(&folder.0);
        let done = shell.output().expect("sh runs");
        assert!(done.status.success(), "{} through {tool}: {}", sheet.display(), String::from_utf8_lossy(&done.stderr));
        assert!(fs::read(folder.file("again.sxf")).expect("a sheet") == bytes, "{} through {tool}", sheet.display());
    }
}

#[test]
fn samples_come_back_through_tools() {
    let folder = Folder::new("samples-through-tools");
    for name in ACCEPTED {
        comes_back(&folder, &sample(name));
    }
}

/// A shore of ten points with an island of 70,000.
#[test]
fn a_long_island_comes_back_through_tools() {
    let folder = Folder::new("island-through-tools");
    fs::write(folder.file("island.sxf"), mark::marked(&[10, 70_000])).expect("a file");
    comes_back(&folder, &folder.file("island.sxf"));
}

/// All of them go through the tools as characters.
#[test]
fn every_character_comes_back_through_tools() {
    let folder = Folder::new("every-through-tools");
    for labels in 0..=2 {
        fs::write(folder.file("every.sxf"), every::sheet(labels)).expect("a file");
        let table = out(&on("table", &folder.file("every.sxf"), &[]));
        assert!(!table.contains("_bytes\"") && !table.contains("\"value\""), "labels in coding {labels}");
        comes_back(&folder, &folder.file("every.sxf"));
    }
}

#[test]
fn drawn_sheets_come_back_through_tools() {
    let folder = Folder::new("drawn-through-tools");
    let (mut met, mut tables) = (BTreeSet::new(), String::new());
    for number in 0..20 {
        let bytes = drawn::sheet(number);
        met.extend(classes(&bytes));
        fs::write(folder.file("drawn.sxf"), &bytes).expect("a file");
        tables += &out(&on("table", &folder.file("drawn.sxf"), &[]));
        comes_back(&folder, &folder.file("drawn.sxf"));
    }
    assert_eq!(met, every_class(), "what was tried is every kind of element");
    for field in ["\"label\":", "\"label_bytes\":", "\"text\":", "\"value\":", "\"mark\":1,"] {
        assert!(tables.contains(field), "what was tried has texts as characters and as bytes, and the mark, {field}");
    }
}

/// Of each element of a sheet its shape of points, its kind, and of a floating number what it is.
fn classes(sheet: &[u8]) -> BTreeSet<String> {
    let sheet = Sheet::read(sheet, Setting::Y2017).expect("a sheet");
    let mut classes = BTreeSet::new();
    for record in sheet.records() {
        let reference = record.reference();
        let kinds: Vec<ElementKind> = [reference.planar(); 2].into_iter().chain(reference.height()).collect();
        for part in record.parts() {
            let elements = part.elements().iter().zip(kinds.iter().cycle());
            classes.extend(elements.map(|(&bits, &kind)| class(kinds.len(), kind, bits)));
        }
    }
    classes
}

fn class(of_a_point: usize, kind: ElementKind, bits: u64) -> String {
    let (sign, what) = match kind.number(bits).expect("a number") {
        Number::Whole(whole) => (whole < 0, "whole"),
        Number::Single(single) => (single.is_sign_negative(), name(single.classify())),
        Number::Double(double) => (double.is_sign_negative(), name(double.classify())),
        Number::NotNumber(bits) => (bits >> (8 * kind.width() - 1) == 1, "NaN"),
    };
    format!("{of_a_point} {kind} {}{what}", if sign { "-" } else { "" })
}

fn name(category: FpCategory) -> &'static str {
    match category {
        FpCategory::Nan => "NaN",
        FpCategory::Infinite => "infinite",
        FpCategory::Zero => "zero",
        FpCategory::Subnormal => "subnormal",
        FpCategory::Normal => "normal",
    }
}

fn every_class() -> BTreeSet<String> {
    let mut classes = BTreeSet::new();
    for of_a_point in [2, 3] {
        classes.extend(["2 bytes whole", "4 bytes whole", "4 bytes -whole"].map(|what| format!("{of_a_point} integers of {what}")));
        for width in [4, 8] {
            for what in ["NaN", "infinite", "zero", "subnormal", "normal"] {
                classes.extend(["", "-"].map(|sign| format!("{of_a_point} floating numbers of {width} bytes {sign}{what}")));
            }
        }
    }
    classes
}
