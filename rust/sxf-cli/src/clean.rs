//! `sxf clean`: a sheet with the tails of its text fields cleared.
use crate::failure::{say, Failure};
use crate::head::OwnHead;
use crate::input;
use crate::output::{self, Target};
use std::io::{self, Write};
use std::path::Path;
use sxf::{Setting, Table};

/// What is cleared is told before the sheet is written, so that the letters are not lost.
pub fn run(file: &Path, target: &Target<'_>, setting: Setting, out: &mut dyn Write) -> Result<(), Failure> {
    let (head, table) = read(file, setting)?;
    let cleared = sxf::write(&head.lend(), table.lend(), setting).map_err(|refusal| Failure::refused(file, refusal))?;
    output::whole(target, &cleared, out, || tell(file, &head))
}

/// Head and record table of a sheet. Its bytes are given back, so that they are not in memory beside those of the sheet that is written.
fn read(file: &Path, setting: Setting) -> Result<(OwnHead, Table), Failure> {
    let bytes = input::bytes(file)?;
    let sheet = input::sheet(file, &bytes, setting)?;
    let refused = |refusal| Failure::refused(file, refusal);
    let head = OwnHead::copied(&sheet.head().map_err(refused)?, &sheet.tails().map_err(refused)?);
    Ok((head, sheet.into_table()))
}

fn tell(file: &Path, head: &OwnHead) -> io::Result<()> {
    if head.cleared.is_empty() {
        say(file, "no text field has old letters after its first zero; the sheet is written as it was")?;
    }
    head.cleared.iter().try_for_each(|what| say(file, what))
}
