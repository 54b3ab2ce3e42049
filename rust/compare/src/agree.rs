//! What the archive's writer makes, read by GDAL and by the archive's reader: features, coordinates, values and texts side by side.

use crate::bases::{self, Base};
use crate::gdal::{Feature, Field, Gdal};
use crate::scratch::Scratch;
use crate::sheets::{self, Record, Sheet, DEVICE};
use crate::texts::{labels, shown};
use crate::values::{value, Value};
use sxf::Text;

/// How many records a sheet has, but that of one long line.
const RECORDS: usize = 200;

/// How many were held against each other, how many are the same, and the largest difference of those that are not.
#[derive(Default)]
struct Tally {
    held: u64,
    same: u64,
    worst: f64,
}

impl Tally {
    fn number(&mut self, ours: f64, theirs: f64) {
        self.held += 1;
        if ours == theirs {
            self.same += 1;
        } else {
            self.worst = self.worst.max(((ours - theirs) / ours).abs());
        }
    }

    fn text(&mut self, ours: &str, theirs: &str) {
        self.held += 1;
        self.same += u64::from(ours == theirs);
        if ours != theirs {
            self.worst = f64::INFINITY;
        }
    }

    fn cell(&self) -> String {
        match self.held {
            0 => "none".to_string(),
            held if held == self.same => format!("{held}, all the same"),
            held if self.worst < 1e-12 => {
                format!("{held}, {} the same, the others within {:.0e} of the value", self.same, self.worst)
            }
            held => format!("{held}, {} THE SAME, worst {}", self.same, self.worst),
        }
    }
}

/// The point as GDAL should give it: east, north, height. Device points go to metres by formula (1) of 000, appendix 5, where the frame's
/// corner on the device stands for the sheet's corner on the ground.
fn expected(sheet: &Sheet, [x, y, h]: [f64; 3]) -> [f64; 3] {
    if sheet.flags != DEVICE {
        return [y, x, h];
    }
    let metres = f64::from(sheet.scale) / f64::from(sheet.resolution);
    let ground = |axis: usize, d: f64| sheet.corners[axis] + (d - f64::from(sheet.frame[axis])) * metres;
    [ground(1, y), ground(0, x), h]
}

struct Row {
    coordinates: Tally,
    values: Tally,
    texts: Tally,
}

fn hold(sheet: &Sheet, record: &Record, feature: &Feature, row: &mut Row) {
    assert_eq!(record.parts.len(), feature.parts.len(), "parts of {feature:?}");
    for (part, theirs) in record.parts.iter().zip(&feature.parts) {
        assert_eq!(part.points.len(), theirs.len(), "points of {feature:?}");
        for (point, theirs) in part.points.iter().zip(theirs) {
            let ours = expected(sheet, *point);
            (0..3).for_each(|axis| row.coordinates.number(ours[axis], theirs[axis]));
        }
    }
    for item in &record.items {
        match (value(item), feature.field(&format!("SC_{}", item.code))) {
            (Value::Number(ours), Some(Field::Number(theirs))) => row.values.number(ours, *theirs),
            (Value::Text(ours), Some(Field::Text(theirs))) => row.values.text(&ours, theirs),
            (ours, theirs) => panic!("an item {ours:?} is {theirs:?}"),
        }
    }
    if record.localisation == 3 {
        let lines: Vec<String> =
            record.parts.iter().map(|p| shown(Text { coding: labels(sheet.coding), bytes: &p.text })).collect();
        match feature.field("TEXT") {
            Some(Field::Text(theirs)) => row.texts.text(&lines.join(" "), theirs),
            other => panic!("a label is {other:?}"),
        }
    }
}

fn compare(gdal: &Gdal, base: &Base, path: &str) {
    let bytes = base.sheet.write();
    std::fs::write(path, &bytes).expect("room for the sheet's file");
    let records = sheets::read(&bytes);
    let features = gdal.read(path).expect("GDAL opens the sheet");
    let mut row = Row { coordinates: Tally::default(), values: Tally::default(), texts: Tally::default() };
    assert_eq!(records.len(), features.len(), "features of {}", base.name);
    for (number, (record, feature)) in records.iter().zip(&features).enumerate() {
        assert_eq!(feature.number, number as i64, "the number of a feature is its record's");
        hold(&base.sheet, record, feature, &mut row);
    }
    let cells = [row.coordinates.cell(), row.values.cell(), row.texts.cell()].join(" | ");
    println!("| {} | {} | {} | {cells} |", base.name, records.len(), features.len());
}

pub fn run(gdal: &Gdal) {
    let scratch = Scratch::new();
    let path = scratch.path("agreed.sxf");
    println!("| sheet | records | features in GDAL | coordinates | item values | label texts |");
    println!("|---|---|---|---|---|---|");
    for base in bases::all(RECORDS) {
        compare(gdal, &base, &path);
    }
    compare(gdal, &bases::marked(RECORDS), &path);
    compare(gdal, &bases::long(), &path);
}
