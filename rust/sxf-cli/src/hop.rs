//! `sxf frame` and `sxf find`: the frame of a sheet, and the first record of a class code, from header to header.
use crate::failure::Failure;
use crate::input;
use std::io::Write;
use std::path::Path;
use sxf::{Hit, Hop, Refusal};

pub fn frame(file: &Path, out: &mut dyn Write) -> Result<(), Failure> {
    let bytes = input::bytes(file)?;
    tell(file, sxf::frame(&bytes), out)
}

pub fn find(file: &Path, code: u32, out: &mut dyn Write) -> Result<(), Failure> {
    let bytes = input::bytes(file)?;
    tell(file, sxf::first_with(&bytes, code), out)
}

/// Prints one line. It says that the sheet was not checked, so that nobody takes a sheet for accepted because its frame was found.
fn tell(file: &Path, answer: Result<Hop<'_>, Refusal>, out: &mut dyn Write) -> Result<(), Failure> {
    let Hop { code, found, looked } = answer.map_err(|refusal| Failure::refused(file, refusal))?;
    match found {
        Some(Hit { record, place, bytes }) => {
            write!(out, "record {record} at {place} ({place:#x}), {} bytes, code {code}", bytes.len())?
        }
        None => write!(out, "no record has code {code}")?,
    }
    writeln!(out, "; headers looked at: {looked}; the sheet was not checked")?;
    Ok(())
}
