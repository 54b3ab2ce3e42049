//! `sxf check`: whether a sheet is accepted, and which tails of its text fields are not clean.
use crate::failure::Failure;
use crate::quoted::visible_line;
use crate::{input, tails};
use std::io::Write;
use std::path::Path;
use sxf::Setting;

pub fn run(file: &Path, setting: Setting, out: &mut dyn Write) -> Result<(), Failure> {
    let bytes = input::bytes(file)?;
    let refused = |refusal| Failure::refused(file, refusal);
    let sizes = sxf::check(&bytes, setting).map_err(refused)?;
    let name = visible_line(&file.display().to_string());
    writeln!(out, "{name}: accepted at {setting}: {} bytes, sum {}, records {}", bytes.len(), sizes.sum, sizes.records)?;
    for (field, tail) in sxf::tails(&bytes, setting).map_err(refused)?.dirty() {
        writeln!(out, "{name}: {}", tails::found(field, tail.letters()))?;
    }
    Ok(())
}
