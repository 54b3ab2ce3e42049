//! A thousand damaged sheets, the same in every run, and what each reader makes of them.

use crate::bases::{self, Base};
use crate::child::{ask_gdal, ask_ours, End, Opened};
use crate::random::Random;
use crate::scratch::Scratch;
use crate::SETTING;
use sxf::fields::{descriptor, header, passport, Field, START};
use sxf::{Refusal, Table};

const SHEETS: usize = 1000;

const KINDS: [&str; 6] = [
    "one bit turned, anywhere",
    "one byte of a head or header changed",
    "a length or count changed",
    "cut short",
    "up to 16 bytes put in",
    "up to 16 bytes taken out",
];

/// The number in a field, the lowest byte first.
fn number(sheet: &[u8], field: Field) -> u64 {
    sheet[field.range()].iter().rev().fold(0, |number, &byte| number << 8 | u64::from(byte))
}

/// Where the records of an undamaged sheet start.
fn starts(sheet: &[u8]) -> Vec<usize> {
    let mut starts = Vec::new();
    let mut at = START;
    while at < sheet.len() {
        starts.push(at);
        at += number(sheet, header::TOTAL.at(at)) as usize;
    }
    starts
}

/// Another number in place of one of a record's lengths or counts, or of the count of records.
fn change_count(sheet: &mut [u8], random: &mut Random) {
    let starts = starts(sheet);
    let start = starts[random.below(starts.len())];
    let of_record = [header::TOTAL, header::METRIC, header::SUBOBJECTS, header::POINTS].map(|field| field.at(start));
    let field = *of_record.get(random.below(5)).unwrap_or(&descriptor::COUNT);
    let was = number(sheet, field);
    let now = match random.below(4) {
        0 => was + 1 + random.below(16) as u64,
        1 => was.saturating_sub(1 + random.below(16) as u64),
        2 => 0xFFFF_FFFF >> random.below(32),
        _ => random.bits(),
    };
    sheet[field.range()].copy_from_slice(&now.to_le_bytes()[..field.width]);
}

fn damage(sheet: &mut Vec<u8>, kind: usize, random: &mut Random) {
    let place = random.below(sheet.len());
    let count = 1 + random.below(16);
    match kind {
        0 => sheet[place] ^= 1 << random.below(8),
        1 => {
            let starts = starts(sheet);
            let at = match random.below(3) {
                0 => random.below(START),
                _ => starts[random.below(starts.len())] + random.below(header::SIZE),
            };
            sheet[at] = sheet[at].wrapping_add(1 + random.below(255) as u8);
        }
        2 => change_count(sheet, random),
        3 => sheet.truncate(place),
        4 => drop(sheet.splice(place..place, (0..count).map(|_| random.bits() as u8))),
        _ => drop(sheet.drain(place..(place + count).min(sheet.len()))),
    }
}

pub fn put_sum_right(sheet: &mut [u8]) {
    if sheet.len() >= passport::SUM.after() {
        sheet[passport::SUM.range()].fill(0);
        // "The sum may now pass 32 bits, and only its low 32 are kept" (02, request 7).
        let sum: u64 = sheet.iter().map(|&byte| u64::from(byte)).sum();
        sheet[passport::SUM.range()].copy_from_slice(&(sum as u32).to_le_bytes());
    }
}

/// What GDAL did, seen beside what it did with the undamaged sheet.
#[derive(Clone, Copy, PartialEq, Eq)]
enum Did {
    Refused,
    Warned,
    Same,
    Other,
    Died,
    Hung,
}

const DID: [(Did, &str); 6] = [
    (Did::Refused, "refuses"),
    (Did::Warned, "opens, with an error or warning"),
    (Did::Same, "opens silently, the undamaged sheet's features"),
    (Did::Other, "opens silently, other or fewer features"),
    (Did::Died, "dies"),
    (Did::Hung, "hangs"),
];

fn did(seen: &End<Opened>, undamaged: &Opened) -> Did {
    match seen {
        End::Died(_) => Did::Died,
        End::Hung => Did::Hung,
        End::Answered(seen) if !seen.opened => Did::Refused,
        End::Answered(seen) if seen.errors > undamaged.errors || seen.warnings > undamaged.warnings => Did::Warned,
        End::Answered(seen) if (seen.features, seen.digest) == (undamaged.features, undamaged.digest) => Did::Same,
        End::Answered(_) => Did::Other,
    }
}

struct Tried {
    kind: usize,
    mended: bool,
    /// Number, place and year; none if the archive died or hung.
    ours: Option<[u64; 3]>,
    gdal: Did,
}

fn try_all() -> Vec<Tried> {
    let scratch = Scratch::new();
    let path = scratch.path("damaged.sxf");
    let bases: Vec<(Vec<u8>, Opened)> = bases::all(8)
        .iter()
        .map(|Base { sheet, name }| {
            let bytes = sheet.write();
            std::fs::write(&path, &bytes).expect("room for the sheet's file");
            match ask_gdal(&path) {
                End::Answered(seen) if seen.opened => (bytes, seen),
                other => panic!("GDAL does not read {name}: {other:?}"),
            }
        })
        .collect();
    let mut random = Random(2026);
    let mut tried = Vec::new();
    for index in 0..SHEETS {
        let (kind, mended) = (index / 2 % KINDS.len(), index % 2 == 1);
        let (base, undamaged) = &bases[index / 2 / KINDS.len() % bases.len()];
        let mut sheet = base.clone();
        while sheet == *base {
            damage(&mut sheet, kind, &mut random);
        }
        if mended {
            put_sum_right(&mut sheet);
        }
        std::fs::write(&path, &sheet).expect("room for the sheet's file");
        let ours = match ask_ours(&path) {
            End::Answered(refusal) => Some(refusal),
            _ => None,
        };
        agrees_with_second(&sheet, ours);
        tried.push(Tried { kind, mended, ours, gdal: did(&ask_gdal(&path), undamaged) });
    }
    tried
}

/// `second` must say the same.
fn agrees_with_second(sheet: &[u8], ours: Option<[u64; 3]>) {
    let second = match second::read(sheet, SETTING.year()) {
        Ok(reading) => {
            let table = Table::unfold(sheet, SETTING).map(|t| (t.numbers, t.elements, t.bytes)).ok();
            assert!(
                table == Some((reading.table.numbers, reading.table.elements, reading.table.bytes)),
                "`second` reads another table"
            );
            [0, 0, 0]
        }
        Err(refusal) => [refusal.number, refusal.place, refusal.year],
    };
    assert_eq!(ours, Some(second), "`second` does not say the same");
}

fn count(tried: &[&Tried], which: impl Fn(&Tried) -> bool) -> usize {
    tried.iter().filter(|t| which(t)).count()
}

fn row(name: &str, tried: &[&Tried]) {
    let refused = count(tried, |t| t.ours.is_some_and(|o| o[0] != 0));
    let accepted = count(tried, |t| t.ours.is_some_and(|o| o[0] == 0));
    let gdal = DID.map(|(did, _)| count(tried, |t| t.gdal == did).to_string()).join(" | ");
    println!("| {name} | {} | {refused} | {accepted} | {} | {gdal} |", tried.len(), count(tried, |t| t.ours.is_none()));
}

/// What the answer of that number is called; 0 is no refusal.
fn name(number: u32) -> &'static str {
    match number {
        0 => "ACCEPTED",
        _ => Refusal { number, place: 0, year: 0 }.name(),
    }
}

pub fn run() {
    let all = try_all();
    let of = |which: &dyn Fn(&Tried) -> bool| all.iter().filter(|t| which(t)).collect::<Vec<_>>();
    println!("| damage | sheets | ours refuses | accepts | dies or hangs | GDAL {} |", DID.map(|d| d.1).join(" | "));
    println!("|---|---|---|---|---|---|---|---|---|---|---|");
    for (kind, name) in KINDS.iter().enumerate() {
        row(&format!("{name}; sum left"), &of(&|t| t.kind == kind && !t.mended));
        row(&format!("{name}; sum put right"), &of(&|t| t.kind == kind && t.mended));
    }
    row("all", &of(&|_| true));
    row("all that are legal sheets again", &of(&|t| t.ours.is_some_and(|o| o[0] == 0)));
    row("all that are not legal", &of(&|t| t.ours.is_some_and(|o| o[0] != 0)));
    row("not legal, sum put right", &of(&|t| t.mended && t.ours.is_some_and(|o| o[0] != 0)));
    println!("\n| our answer | sheets | GDAL {} |\n|---|---|---|---|---|---|---|---|", DID.map(|d| d.1).join(" | "));
    for number in 0..=Refusal::ASK {
        let answered = of(&|t| t.ours.is_some_and(|o| o[0] == u64::from(number)));
        if !answered.is_empty() {
            let gdal = DID.map(|(did, _)| count(&answered, |t| t.gdal == did).to_string()).join(" | ");
            println!("| {number} {} | {} | {gdal} |", name(number), answered.len());
        }
    }
}
