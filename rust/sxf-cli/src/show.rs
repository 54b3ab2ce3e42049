//! `sxf show`: a sheet for people.
use crate::failure::Failure;
use crate::quoted::quoted;
use crate::{input, tails};
use std::io::Write;
use std::path::Path;
use sxf::{Corners, Head, Item, Number, Part, Point, Record, Setting, Sheet, Tail, Tails, Value};

pub fn run(file: &Path, number: Option<usize>, setting: Setting, out: &mut dyn Write) -> Result<(), Failure> {
    let bytes = input::bytes(file)?;
    let sheet = input::sheet(file, &bytes, setting)?;
    let refused = |refusal| Failure::refused(file, refusal);
    match number {
        Some(number) => {
            let none = || format!("there is no record {number}; the sheet has {}, counted from 0", sheet.record_count());
            let asked = sheet.record(number).map_err(|refusal| Failure::refused_here(file, refusal, none()))?;
            record(&asked, Some(&units(&sheet, &asked)), out)
        }
        None => {
            writeln!(out, "sheet of {} bytes, sum {}, accepted at {setting}", bytes.len(), sheet.sum())?;
            let asked = sheet.head().map_err(refused)?;
            texts(&asked, &sheet.tails().map_err(refused)?, out)?;
            head(&sheet, &asked, out)?;
            corners(&sheet.corners().map_err(refused)?, out)?;
            writeln!(out, "records            {}", sheet.record_count())?;
            sheet.records().try_for_each(|each| record(&each, None, out))
        }
    }
}

/// The units of a record's points, for one that is shown without its sheet's head.
fn units(sheet: &Sheet<'_>, record: &Record<'_>) -> String {
    let heights = format!(", unit of heights {}", sheet.height_unit());
    format!("unit {}{}", sheet.unit(), if record.reference().three_dimensions() { &heights } else { "" })
}

/// The head's texts, and under each the old letters that stand after its first zero, where there are any.
fn texts(head: &Head<'_>, tails: &Tails<'_>, out: &mut dyn Write) -> Result<(), Failure> {
    let mut field = |name, text, tail: Tail<'_>| {
        writeln!(out, "{name:<18} {}", tails::text(text))?;
        match tail.is_clean() {
            true => Ok(()),
            false => writeln!(out, "  old letters      {}", tails::text(tail.letters())),
        }
    };
    field("date", head.date, tails.date)?;
    field("designation", head.designation, tails.designation)?;
    field("designation (data)", head.designation2, tails.designation2)?;
    field("title", head.title, tails.title)?;
    Ok(())
}

fn head(sheet: &Sheet<'_>, head: &Head<'_>, out: &mut dyn Write) -> Result<(), Failure> {
    writeln!(out, "scale              1:{}", head.scale)?;
    writeln!(out, "unit               {}", sheet.unit())?;
    writeln!(out, "unit of heights    {}", sheet.height_unit())?;
    writeln!(out, "resolution         {}", head.resolution())?;
    writeln!(out, "accuracy           {}", head.accuracy())?;
    writeln!(out, "label coding       {}", head.label_coding().map_or("unknown".to_string(), |coding| coding.to_string()))?;
    writeln!(out, "special sorting    {}", yes(head.special_sorting()))?;
    writeln!(out, "EPSG               {}", head.epsg())?;
    writeln!(out, "frame code         {}", head.frame_code())?;
    writeln!(out, "offsets            north {}, east {}", head.north_offset(), head.east_offset())?;
    writeln!(out, "secrecy            {}", head.secrecy())?;
    writeln!(out, "automatic GUID     {}", yes(head.automatic_guid()))?;
    writeln!(out, "edit date          {}", yes(head.edit_date()))?;
    Ok(())
}

fn corners(corners: &Corners, out: &mut dyn Write) -> Result<(), Failure> {
    let mut corner = |name, x: Number, y: Number| writeln!(out, "corner {name}          x {x}, y {y}");
    corner("SW", corners.sw_x, corners.sw_y)?;
    corner("NW", corners.nw_x, corners.nw_y)?;
    corner("NE", corners.ne_x, corners.ne_y)?;
    corner("SE", corners.se_x, corners.se_y)?;
    Ok(())
}

fn yes(flag: bool) -> &'static str {
    if flag {
        "yes"
    } else {
        "no"
    }
}

fn record(record: &Record<'_>, units: Option<&str>, out: &mut dyn Write) -> Result<(), Failure> {
    let (number, place, length) = (record.number(), record.place(), record.total());
    writeln!(out, "record {number} at {place} ({place:#x}), {length} bytes")?;
    writeln!(out, "  code {}, group {}, number in group {}", record.code(), record.group(), record.in_group())?;
    writeln!(out, "  {}", reference(record))?;
    if let Some(units) = units {
        writeln!(out, "  {units}")?;
    }
    writeln!(out, "  visibility {}", record.visibility())?;
    match (record.mark(), record.word()) {
        (true, _) => writeln!(out, "  mark 65535: the word at +24 is the first part's points")?,
        (false, 0) => {}
        (false, word) => writeln!(out, "  word at +24 {word}")?,
    }
    record.parts().enumerate().try_for_each(|(number, each)| part(number, &each, out))?;
    record.items().enumerate().try_for_each(|(number, each)| item(number, &each, out))
}

fn reference(record: &Record<'_>) -> String {
    let reference = record.reference();
    let localisation = reference.localisation().map_or("unknown localisation".to_string(), |known| known.to_string());
    let mut words = vec![localisation, reference.planar().to_string()];
    let told_above = ["large elements", "floating"];
    words.extend(reference.words().filter(|word| !told_above.contains(word)).map(str::to_string));
    if reference.spline() != 0 {
        words.push(format!("spline {}", reference.spline()));
    }
    words.join(", ")
}

fn part(number: usize, part: &Part<'_>, out: &mut dyn Write) -> Result<(), Failure> {
    writeln!(out, "  part {number}, points {}", part.points().len())?;
    part.points().try_for_each(|each| point(&each, out))?;
    if let Some(text) = part.text() {
        writeln!(out, "    text {}", quoted(&text))?;
    }
    Ok(())
}

fn point(point: &Point, out: &mut dyn Write) -> Result<(), Failure> {
    write!(out, "    {} {}", point.x.number(), point.y.number())?;
    match point.height {
        Some(height) => writeln!(out, " height {}", height.number())?,
        None => writeln!(out)?,
    }
    Ok(())
}

fn item(number: usize, item: &Item<'_>, out: &mut dyn Write) -> Result<(), Failure> {
    write!(out, "  item {number}, code {}, type {}, scale byte {}: ", item.code, item.kind, item.scale)?;
    match item.value() {
        Value::Text(text) => writeln!(out, "{}", quoted(&text))?,
        Value::Decimal { whole, power } => writeln!(out, "{}", decimal(whole, power))?,
        Value::Double(number) => writeln!(out, "{number}")?,
        Value::Unread => writeln!(out, "{:02x?}", item.bytes)?,
    }
    Ok(())
}

/// whole × 10^power with all its digits: 127.3.
fn decimal(whole: i64, power: i64) -> String {
    let (sign, digits) = (if whole < 0 { "-" } else { "" }, whole.unsigned_abs().to_string());
    let shift = power.unsigned_abs() as usize;
    match power {
        0.. if whole == 0 => digits,
        0.. => format!("{sign}{digits}{}", "0".repeat(shift)),
        _ => {
            // At least one digit stands before the point.
            let digits = format!("{digits:0>least$}", least = shift + 1);
            let (before, after) = digits.split_at(digits.len() - shift);
            format!("{sign}{before}.{after}")
        }
    }
}

#[cfg(test)]
mod tests {
    use super::decimal;

    #[test]
    fn decimals_have_all_their_digits() {
        let stated = [
            (1273, -1, "127.3"),
            (-1273, -4, "-0.1273"),
            (-5, -1, "-0.5"),
            (1270, -1, "127.0"),
            (0, -2, "0.00"),
            (7, 0, "7"),
            (-7, 3, "-7000"),
            (0, 127, "0"),
        ];
        for (whole, power, told) in stated {
            assert_eq!(decimal(whole, power), told);
        }
        assert_eq!(decimal(1, -127), format!("0.{}1", "0".repeat(126)));
        assert_eq!(decimal(i64::MIN, 0), i64::MIN.to_string());
    }
}
