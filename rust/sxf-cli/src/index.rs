//! `sxf index`: the code index of a sheet.
use crate::failure::Failure;
use crate::output::{self, Target};
use crate::{input, standard};
use std::fs::{self, Metadata};
use std::io::{self, Write};
use std::os::unix::fs::MetadataExt;
use std::path::Path;
use sxf::{Index, Setting};

pub fn run(file: &Path, target: &Target<'_>, setting: Setting, out: &mut dyn Write) -> Result<(), Failure> {
    let sheet = input::bytes(file)?;
    let index = Index::build(&sheet, setting).map_err(|refusal| Failure::refused(file, refusal))?;
    // `--force` would put the sheet away, and its index does not give it back.
    if is_sheet(target.file, file) {
        return Err(Failure::trouble(target.file, "cannot be written: it is the sheet itself"));
    }
    output::whole(target, index.bytes(), out, || Ok(()))
}

/// Whether the target is the file that the sheet was read from, behind links: the one that is named, or the one that standard input is. Which
/// file comes through a pipe is not known.
fn is_sheet(target: &Path, file: &Path) -> bool {
    let identity = |found: io::Result<Metadata>| found.ok().map(|found| (found.dev(), found.ino()));
    let sheet = match input::is_standard(file) {
        true => standard::input_metadata(),
        false => fs::metadata(file),
    };
    // A target of `-` is standard output, and no file's name.
    !input::is_standard(target) && identity(sheet).is_some_and(|known| identity(fs::metadata(target)) == Some(known))
}
