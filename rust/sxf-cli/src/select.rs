//! `sxf select`: the records of a class code, each as `sxf list` prints it.
use crate::failure::Failure;
use crate::{input, list};
use std::io::Write;
use std::path::Path;
use sxf::{Index, OtherSheet, Picks, Setting, Sheet};

/// Nothing is printed before every pick is held against the sheet, so that no list is cut short.
pub fn run(file: &Path, code: u32, index: Option<&Path>, setting: Setting, out: &mut dyn Write) -> Result<(), Failure> {
    if index.is_some_and(|index| input::is_standard(index) && input::is_standard(file)) {
        return Err(Failure::Trouble("the sheet and the index are both -, and there is one standard input".to_string()));
    }
    let bytes = input::bytes(file)?;
    let sheet = input::sheet(file, &bytes, setting)?;
    let picks = match index {
        Some(index) => by_index(&sheet, index, &input::index(index)?, code)?,
        None => by_sheet(&sheet, file, code)?,
    };
    list::listed(&sheet, sheet.records_of(picks).flatten(), out)
}

fn by_sheet(sheet: &Sheet<'_>, file: &Path, code: u32) -> Result<Picks, Failure> {
    let picks = sheet.select(code).map_err(|refusal| Failure::refused(file, refusal))?;
    let fault = |_| Failure::trouble(file, "what is selected is not among the sheet's records; this is a fault of sxf");
    held(sheet, picks).map_err(fault)
}

/// What an index has under the code, unless it is seen that it is another sheet's. One that has as many entries as there are records,
/// and what the sheet has under the code, may still have less than the sheet: nothing shows that.
fn by_index(sheet: &Sheet<'_>, file: &Path, index: &Index, code: u32) -> Result<Picks, Failure> {
    let other =
        |told| Failure::trouble(file, format!("the index does not belong to this sheet: {told}; build it again by `sxf index`"));
    let (entries, records) = (index.entry_count(), sheet.record_count());
    if entries != records {
        return Err(other(format!("its entries are {entries}, where the sheet's records are {records}")));
    }
    held(sheet, index.select(code)).map_err(|found| other(both(&found)))
}

/// What the index has, and what the sheet has under the same number.
fn both(found: &OtherSheet) -> String {
    let own = found.own.map_or_else(|| format!("no record {}", found.pick.record), |own| own.to_string());
    format!("it has {}, where the sheet has {own}", found.pick)
}

/// The picks, if each is a record of the sheet. The records themselves are not kept: all of a sheet would take as much memory as its table.
fn held(sheet: &Sheet<'_>, picks: Picks) -> Result<Picks, OtherSheet> {
    sheet.records_of(picks.clone()).try_for_each(|record| record.map(drop))?;
    Ok(picks)
}
