//! `sxf list`: what the program `listing` prints.
use crate::failure::Failure;
use crate::input;
use std::io::Write;
use std::path::Path;
use sxf::{Record, Setting, Sheet};

pub fn run(file: &Path, out: &mut dyn Write) -> Result<(), Failure> {
    let bytes = input::bytes(file)?;
    let sheet = input::sheet(file, &bytes, Setting::Y2017)?;
    listed(&sheet, sheet.records(), out)
}

/// The sheet's line, and one for each of these records.
pub fn listed<'a>(sheet: &Sheet<'_>, records: impl IntoIterator<Item = Record<'a>>, out: &mut dyn Write) -> Result<(), Failure> {
    writeln!(out, "SXF {} {} {}", sheet.bytes().len(), sheet.sum(), sheet.record_count())?;
    records.into_iter().try_for_each(|record| line(&record, out))
}

fn line(record: &Record<'_>, out: &mut dyn Write) -> Result<(), Failure> {
    writeln!(
        out,
        "{} {} {} {} {} {} {} {} {}",
        record.number(),
        record.place(),
        record.total(),
        record.code(),
        record.in_group(),
        record.group(),
        record.reference().localisation_number(),
        record.first_points(),
        record.items().count()
    )?;
    Ok(())
}
