//! A sheet or an index is written to a file, whole or not at all, or to standard output.
use crate::failure::Failure;
use crate::standard;
use std::fs::{self, File, FileType, Metadata, OpenOptions, Permissions};
use std::io::{self, Write};
use std::os::unix::fs::{fchown, FileTypeExt, MetadataExt, PermissionsExt};
use std::path::{Path, PathBuf};
use std::process;

/// Where it goes: a file, or standard output for `-`. A file that is there is replaced only by `force`.
pub struct Target<'a> {
    pub file: &'a Path,
    pub force: bool,
}

/// Writes the bytes. `tell` says what is lost by that, so it comes when all is ready and before they are there: where it fails, nothing is
/// written.
pub fn whole(target: &Target<'_>, bytes: &[u8], out: &mut dyn Write, tell: impl FnOnce() -> io::Result<()>) -> Result<(), Failure> {
    let cannot = |error| Failure::trouble(target.file, format!("cannot be written: {error}"));
    if target.file != Path::new("-") {
        return written(target, bytes, tell).map_err(cannot);
    }
    standard::output_is_there().map_err(Failure::standard_output)?;
    tell().map_err(cannot)?;
    // Also a reader that goes is a failure here: what it has is not whole.
    out.write_all(bytes).and_then(|()| out.flush()).map_err(Failure::standard_output)
}

/// Writes a file beside the one wanted, and gives it that name when it is safe on the disk and all is told. On a failure nothing is left behind.
fn written(target: &Target<'_>, bytes: &[u8], tell: impl FnOnce() -> io::Result<()>) -> io::Result<()> {
    let (file, found) = behind_links(target.file)?;
    // Asked before anything is told. A file that comes later is seen when the name is given.
    if found.is_some() && !target.force {
        return Err(refused(TAKEN));
    }
    let folder = match file.parent() {
        Some(parent) if parent != Path::new("") => parent,
        _ => Path::new("."),
    };
    let (temporary, beside) = create(folder)?;
    let named = fill(beside, bytes, found).and_then(|()| tell()).and_then(|()| name(&temporary, &file, target.force));
    if named.is_err() {
        // An error here would hide the one that is told.
        let _ = fs::remove_file(&temporary);
    }
    named?;
    keep_name(folder);
    Ok(())
}

/// The file to put in place, behind links, and what is known of it if it is there. What is there and is no file is not put away.
fn behind_links(file: &Path) -> io::Result<(PathBuf, Option<Metadata>)> {
    match fs::metadata(file) {
        Ok(found) if found.is_file() => Ok((writable(file, &found)?, Some(found))),
        Ok(found) => Err(refused(format!("it is {}", kind(found.file_type())))),
        Err(error) if error.kind() == io::ErrorKind::NotFound => match fs::read_link(file) {
            Ok(named) => Err(refused(format!("it is a dangling link, to {}", named.display()))),
            Err(_) => Ok((file.to_path_buf(), None)),
        },
        Err(error) => Err(error),
    }
}

/// A file that is there. Whoever may not write into it may not put another in its place, though the folder would let him.
fn writable(file: &Path, found: &Metadata) -> io::Result<PathBuf> {
    // To some users every file opens, so its permissions are looked at too.
    if found.permissions().readonly() {
        return Err(refused("it is there and has no write permission, so it is not replaced"));
    }
    OpenOptions::new().write(true).open(file)?;
    fs::canonicalize(file)
}

fn kind(found: FileType) -> &'static str {
    if found.is_dir() {
        "a folder"
    } else if found.is_block_device() || found.is_char_device() {
        "a device"
    } else if found.is_fifo() {
        "a pipe"
    } else {
        "no regular file"
    }
}

fn refused(what: impl Into<String>) -> io::Error {
    io::Error::new(io::ErrorKind::InvalidInput, what.into())
}

/// Why a file that is there is not replaced.
const TAKEN: &str = "it is there already; --force replaces it";

/// Gives the file its name. Without `force` it must be free: a rename would put away what has it, a link does not. Some file systems have no links.
fn name(temporary: &Path, file: &Path, force: bool) -> io::Result<()> {
    if force {
        return fs::rename(temporary, file);
    }
    match fs::hard_link(temporary, file) {
        Ok(()) => fs::remove_file(temporary),
        Err(_) if fs::symlink_metadata(file).is_ok() => Err(refused(TAKEN)),
        Err(_) => fs::rename(temporary, file),
    }
}

/// Fills the file, and gives it the permissions of the one that it replaces, and the owner where that is allowed.
fn fill(mut file: File, bytes: &[u8], replaced: Option<Metadata>) -> io::Result<()> {
    if let Some(found) = replaced {
        let _ = fchown(&file, Some(found.uid()), Some(found.gid()));
        // It is no program, so no bit stays that a program has beside its permissions.
        file.set_permissions(Permissions::from_mode(found.mode() & 0o777))?;
    }
    file.write_all(bytes)?;
    file.sync_all()
}

/// The new name is on the disk when the folder is. Not every file system lets a folder be synced, and the file itself is whole either way.
fn keep_name(folder: &Path) {
    let _ = File::open(folder).and_then(|folder| folder.sync_all());
}

/// Creates a file in the folder, under a name that is not taken.
fn create(folder: &Path) -> io::Result<(PathBuf, File)> {
    for attempt in 0..100 {
        let path = folder.join(format!(".sxf.{}.{attempt}.tmp", process::id()));
        match OpenOptions::new().write(true).create_new(true).open(&path) {
            Ok(opened) => return Ok((path, opened)),
            Err(error) if error.kind() == io::ErrorKind::AlreadyExists => continue,
            Err(error) => return Err(refused(format!("no file can be made in its folder: {error}"))),
        }
    }
    Err(refused("its folder is full of temporary files"))
}

#[cfg(test)]
mod tests {
    use super::*;

    /// A file that has come after the target was looked at stays, unless `force` is given.
    #[test]
    fn a_name_that_is_taken_meanwhile_is_not_taken_over() {
        let folder = std::env::temp_dir().join(format!("sxf-output-{}", process::id()));
        fs::create_dir_all(&folder).expect("a folder");
        let (temporary, file, free) = (folder.join("temporary"), folder.join("file"), folder.join("free"));
        let lay = || [(&temporary, "new"), (&file, "old")].map(|(path, what)| fs::write(path, what).expect("a file"));
        let read = |path: &Path| fs::read_to_string(path).expect("a file");
        lay();
        assert!(name(&temporary, &file, false).is_err());
        assert_eq!((read(&file), read(&temporary)), ("old".to_string(), "new".to_string()));
        name(&temporary, &free, false).expect("it is free");
        assert_eq!((read(&free), temporary.exists()), ("new".to_string(), false));
        lay();
        name(&temporary, &file, true).expect("it is replaced");
        assert_eq!((read(&file), temporary.exists()), ("new".to_string(), false));
        fs::remove_dir_all(&folder).expect("the folder");
    }
}
