//! Files that are read.
use crate::failure::Failure;
use crate::standard;
use std::fs::File;
use std::io::Read;
use std::path::Path;
use sxf::index::LONGEST;
use sxf::{Index, Setting, Sheet, LIMIT};

/// Whether a name stands for standard input.
pub fn is_standard(file: &Path) -> bool {
    file == Path::new("-")
}

/// A file, or standard input for `-`.
pub fn open(file: &Path) -> Result<Box<dyn Read>, Failure> {
    if is_standard(file) {
        let input = standard::input().map_err(|error| Failure::Trouble(format!("standard input: {error}")))?;
        return Ok(Box::new(input));
    }
    let opened = File::open(file).map_err(|error| Failure::trouble(file, error))?;
    Ok(Box::new(opened))
}

/// A sheet's bytes, and of a longer file one byte more than the limit: that is enough for the library to refuse it as TOO LONG.
pub fn bytes(file: &Path) -> Result<Vec<u8>, Failure> {
    at_most(file, LIMIT + 1)
}

/// The first so many bytes of a file.
fn at_most(file: &Path, length: usize) -> Result<Vec<u8>, Failure> {
    let mut bytes = Vec::new();
    let read = open(file)?.take(length as u64).read_to_end(&mut bytes);
    read.map_err(|error| Failure::trouble(file, error))?;
    Ok(bytes)
}

/// An index. One byte more than the longest has is a bad block of its own, as the whole block there would be.
pub fn index(file: &Path) -> Result<Index, Failure> {
    Index::read(at_most(file, LONGEST + 1)?).map_err(|refusal| Failure::refused(file, refusal))
}

/// Reads a sheet, and sees that the walk over its table comes to the sheet's end, so that nothing is left out of what is told.
pub fn sheet<'a>(file: &Path, bytes: &'a [u8], setting: Setting) -> Result<Sheet<'a>, Failure> {
    let sheet = Sheet::read(bytes, setting).map_err(|refusal| Failure::refused(file, refusal))?;
    if sheet.table().sheet_length() != Some(bytes.len()) {
        return Err(Failure::trouble(file, "the record table does not come to the sheet's end; this is a fault of sxf"));
    }
    Ok(sheet)
}
