//! What is written where, and what is left where it is.
use crate::run::{fed, on, out, redirected, sample, status, sxf, told, write, Folder};
use std::env;
use std::fs::{self, Metadata, Permissions};
use std::io;
use std::os::unix::fs::{chown, symlink, MetadataExt, PermissionsExt};
use std::os::unix::process::CommandExt;
use std::path::PathBuf;
use std::process::{self, Command};

#[test]
fn a_file_that_cannot_be_written_leaves_nothing_behind() {
    let folder = Folder::new("target");
    let table = on("table", &sample("Q"), &[]).stdout;
    fs::create_dir(folder.file("taken")).expect("a folder");
    symlink("nowhere.sxf", folder.file("link.sxf")).expect("a link");
    assert!(Command::new("mkfifo").arg(folder.file("pipe")).status().expect("mkfifo runs").success());
    for (target, why) in [
        (folder.file("pipe"), "it is a pipe"),
        (folder.file("none").join("q.sxf"), "no file can be made in its folder: No such file or directory"),
        (folder.file("taken"), "it is a folder"),
        (folder.file(".."), "it is a folder"),
        (PathBuf::from("/dev/null"), "it is a device"),
        (folder.file("link.sxf"), "it is a dangling link, to nowhere.sxf"),
        (PathBuf::from("/proc/q.sxf"), "no file can be made in its folder: "),
    ] {
        for more in [&[][..], &["--force"]] {
            let output = write(&table, &target, more);
            assert_eq!(status(&output), 2, "{}", target.display());
            assert!(told(&output).contains(&format!("cannot be written: {why}")), "{}", told(&output));
        }
    }
    assert_eq!(folder.names(), ["link.sxf", "pipe", "taken"]);
    assert_eq!(fs::read_dir(folder.file("taken")).expect("the folder").count(), 0);
    assert_eq!(fs::read_link(folder.file("link.sxf")).expect("the link"), PathBuf::from("nowhere.sxf"));
}

/// No byte may be written to a file here, as on a disk that is full, so that it fails when the file beside the target is there already.
#[test]
fn a_file_that_is_cut_off_leaves_nothing_behind() {
    let folder = Folder::new("cut");
    let file = folder.file("q.sxf");
    fs::write(&file, b"what was there").expect("a file");
    let json = Folder::new("cut-json");
    fs::write(json.file("q.json"), on("table", &sample("Q"), &[]).stdout).expect("a file");
    let mut limited = Command::new("sh");
    limited.args(["-c", "trap '' XFSZ; ulimit -f 0; exec \"$@\"", "sh", env!("CARGO_BIN_EXE_sxf"), "write"]);
    let output = limited.arg(json.file("q.json")).arg("--force").arg("-o").arg(&file).output().expect("sh runs");
    assert_eq!(status(&output), 2);
    assert!(told(&output).contains("q.sxf: cannot be written: "));
    assert_eq!((folder.names(), fs::read(&file).expect("the file")), (vec!["q.sxf".to_string()], b"what was there".to_vec()));
}

/// The table of Q, and one that is refused.
fn good_and_refused() -> (Vec<u8>, Vec<u8>) {
    let table = out(&on("table", &sample("Q"), &[]));
    (table.clone().into_bytes(), table.replace("\"type\":2", "\"type\":3").into_bytes())
}

#[test]
fn a_refused_table_leaves_the_file_as_it_was() {
    let folder = Folder::new("kept");
    let file = folder.file("q.sxf");
    fs::write(&file, b"what was there").expect("a file");
    let (good, refused) = good_and_refused();
    assert_eq!(status(&write(&refused, &file, &["--force"])), 1);
    assert_eq!(fs::read(&file).expect("the file"), b"what was there");
    assert_eq!(status(&write(&good, &file, &["--force"])), 0);
    assert_eq!(fs::read(&file).expect("the file").len(), 494);
    assert_eq!(folder.names(), ["q.sxf"]);
}

#[test]
fn a_file_that_is_there_is_replaced_only_by_force() {
    let folder = Folder::new("force");
    let (file, link) = (folder.file("q.sxf"), folder.file("link.sxf"));
    fs::write(&file, b"what was there").expect("a file");
    symlink("q.sxf", &link).expect("a link");
    let (good, _) = good_and_refused();
    for target in [&file, &link] {
        let output = write(&good, target, &[]);
        assert_eq!(status(&output), 2);
        assert!(told(&output).ends_with("cannot be written: it is there already; --force replaces it\n"), "{}", told(&output));
        assert_eq!(fs::read(&file).expect("the file"), b"what was there");
    }
    assert_eq!(status(&write(&good, &file, &["--force"])), 0);
    assert_eq!(fs::read(&file).expect("the file").len(), 494);
    // A name may be as long as the file system has them.
    let long = format!("{}.sxf", "n".repeat(251));
    assert_eq!(status(&write(&good, &folder.file(&long), &["--force"])), 0);
    assert_eq!(folder.names(), ["link.sxf", &long, "q.sxf"]);
}

/// Its permissions say so, whoever asks: root could write into every file.
#[test]
fn a_file_without_write_permission_is_never_replaced() {
    let folder = Folder::new("read-only");
    let (file, link) = (folder.file("q.sxf"), folder.file("link.sxf"));
    fs::write(&file, b"what was there").expect("a file");
    fs::set_permissions(&file, Permissions::from_mode(0o444)).expect("permissions");
    symlink("q.sxf", &link).expect("a link");
    let (good, _) = good_and_refused();
    for target in [&file, &link] {
        for more in [&[][..], &["--force"]] {
            let output = write(&good, target, more);
            assert_eq!(status(&output), 2);
            assert!(told(&output).contains("it is there and has no write permission"), "{}", told(&output));
            assert_eq!(fs::read(&file).expect("the file"), b"what was there");
        }
    }
    assert_eq!(folder.names(), ["link.sxf", "q.sxf"]);
}

/// One that this user may not write, in a folder where he may rename. Only root can be another user, as the gate is.
#[test]
fn a_file_of_another_user_is_never_replaced() {
    const NOBODY: u32 = 65534;
    // The folders above the tests' own may be closed to others.
    let folder = Folder(env::temp_dir().join(format!("sxf-nobody-{}", process::id())));
    fs::create_dir(&folder.0).expect("a folder");
    if fs::metadata(&folder.0).expect("the folder").uid() != 0 {
        return;
    }
    fs::set_permissions(&folder.0, Permissions::from_mode(0o777)).expect("permissions");
    // Not copied by this process: a child that another test starts meanwhile would have it open for writing, so that it could not be run.
    let copied = Command::new("cp").arg(env!("CARGO_BIN_EXE_sxf")).arg(folder.file("sxf")).status().expect("cp runs");
    assert!(copied.success());
    fs::write(folder.file("q.json"), good_and_refused().0).expect("a file");
    fs::write(folder.file("q.sxf"), b"what was there").expect("a file");
    let mut command = Command::new(folder.file("sxf"));
    command.args(["write", "q.json", "--force", "-o", "q.sxf"]).current_dir(&folder.0).uid(NOBODY).gid(NOBODY);
    let output = command.output().expect("sxf runs");
    assert_eq!(status(&output), 2);
    assert!(told(&output).contains("q.sxf: cannot be written: Permission denied"), "{}", told(&output));
    assert_eq!(fs::read(folder.file("q.sxf")).expect("the file"), b"what was there");
    assert_eq!(folder.names(), ["q.json", "q.sxf", "sxf"]);
}

#[test]
fn a_sheet_is_written_to_standard_output() {
    let folder = Folder::new("dash");
    let (good, refused) = good_and_refused();
    let mut command = sxf(&["write", "-", "-o", "-"]);
    command.current_dir(&folder.0);
    let written = fed(&mut command, &good);
    assert_eq!((status(&written), written.stderr.len()), (0, 0));
    assert!(written.stdout == fs::read(sample("Q")).expect("a sample"));
    let written = fed(&mut command, &refused);
    assert_eq!((status(&written), written.stdout.len()), (1, 0));
    assert_eq!(folder.names(), [""; 0]);
}

/// A sheet that nobody takes is not written.
#[test]
fn a_reader_that_goes_is_a_failure_of_a_sheet() {
    let folder = Folder::new("gone");
    for name in ["Q", "long"] {
        fs::write(folder.file("lines.json"), on("table", &sample(name), &[]).stdout).expect("a file");
        let (reader, writer) = io::pipe().expect("a pipe");
        drop(reader);
        let mut command = sxf(&["write", "lines.json", "-o", "-"]);
        let output = command.current_dir(&folder.0).stdout(writer).output().expect("sxf runs");
        assert_eq!(status(&output), 2, "{name}");
        assert!(told(&output).contains("standard output: "), "{name}");
    }
}

/// Permissions are kept and owners too; a bit that would have it run as its owner is not.
#[test]
fn a_file_behind_a_link_is_replaced_with_its_permissions() {
    let folder = Folder::new("link");
    let (file, link) = (folder.file("q.sxf"), folder.file("link.sxf"));
    fs::write(&file, b"old").expect("a file");
    // Only root may give a file away.
    let given = chown(&file, Some(12), Some(34)).is_ok();
    fs::set_permissions(&file, Permissions::from_mode(0o4600)).expect("permissions");
    let owner = |found: &Metadata| (found.uid(), found.gid());
    let before = fs::metadata(&file).expect("the file");
    symlink("q.sxf", &link).expect("a link");
    assert_eq!(status(&write(&on("table", &sample("Q"), &[]).stdout, &link, &["--force"])), 0);
    let after = fs::metadata(&file).expect("the file");
    assert_eq!((after.len(), after.mode() & 0o7777), (494, 0o600));
    assert_eq!(owner(&after), if given { (12, 34) } else { owner(&before) });
    assert!(fs::symlink_metadata(&link).expect("the link").is_symlink());
}

#[test]
fn a_reader_that_goes_is_no_failure() {
    let (reader, writer) = io::pipe().expect("a pipe");
    drop(reader);
    let output = sxf(&["table"]).arg(sample("long")).stdout(writer).output().expect("sxf runs");
    assert_eq!((status(&output), output.stderr.len()), (0, 0));
}

#[test]
fn a_full_disk_is_a_failure() {
    let Ok(full) = fs::OpenOptions::new().write(true).open("/dev/full") else { return };
    let output = sxf(&["list"]).arg(sample("Q")).stdout(full).output().expect("sxf runs");
    assert_eq!(status(&output), 2);
    assert!(told(&output).contains("standard output: "));
}

/// Closed, or open only for reading: all that would be printed is lost, so it is a failure, of help too. Nothing is printed where a file is
/// written, so there it is none.
#[test]
fn a_closed_standard_output_is_a_failure() {
    let folder = Folder::new("closed");
    fs::write(folder.file("q.json"), on("table", &sample("Q"), &[]).stdout).expect("a file");
    let run = |how: &str, words: &[&str]| redirected(&folder, how, words);
    // The index of E has no byte, and is lost all the same.
    let [e, q] = ["E", "Q"].map(|name| sample(name).to_string_lossy().into_owned());
    for words in [
        &["list", &q][..],
        &["check", &q],
        &["show", &q],
        &["table", &q],
        &["years", &q],
        &["write", "q.json", "-o", "-"],
        &["index", &q, "-o", "-"],
        &["index", &e, "-o", "-"],
        &["clean", &q, "-o", "-"],
        &["select", &q, "--code", "0"],
        &["frame", &q],
        &["find", &q, "--code", "0"],
        &["--help"],
    ] {
        for (how, why) in [(">&-", "it is closed"), ("1</dev/null", "Bad file descriptor")] {
            let output = run(how, words);
            assert_eq!(status(&output), 2, "{words:?} {how}");
            assert!(told(&output).contains(&format!("standard output: {why}")), "{}", told(&output));
        }
        assert_eq!(status(&run(">/dev/null", words)), 0, "{words:?}");
        assert_eq!(status(&run("1<>/dev/null", words)), 0, "{words:?}");
    }
    let input = run("<&-", &["check", "-"]);
    assert_eq!((status(&input), told(&input).as_str()), (2, "sxf: standard input: it is closed\n"));
    assert_eq!(status(&run(">&- <&-", &["write", "q.json", "-o", "q.sxf"])), 0);
    assert!(fs::read(folder.file("q.sxf")).expect("a sheet") == fs::read(sample("Q")).expect("a sample"));
}
