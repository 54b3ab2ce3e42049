//! Code indexes: what `sxf index` writes, what `sxf select` lists by them, and what it says of one that is damaged or another sheet's.
use crate::drawn;
use crate::run::{fed, on, out, sample, status, sxf, told, Folder, ACCEPTED, REFUSED};
use std::collections::BTreeSet;
use std::fs;
use std::io;
use std::os::unix::fs::symlink;
use std::path::{Path, PathBuf};
use std::process::Output;
use sxf::index::{BLOCK_FULL, BLOCK_SIZE, LONGEST};
use sxf::{Entry, Head, Index, NewPart, NewRecord, Reference, Setting, Writer};

/// Where the first entry of a block has its code, its place and its localisation, and after how many bytes the second has them.
const CODE: usize = 4;
const PLACE: usize = 8;
const LOCALISATION: usize = 12;
const ENTRY_SIZE: usize = 9;

/// How many entries a full block of the old kind has.
const OLD_FULL: usize = 63;

/// Where the two bytes of a block stand that say its kind, and those that have its sum.
const KIND: usize = 508;
const SUM: usize = 510;

/// Writes the index of a sheet.
fn indexed(sheet: &Path, index: &Path, more: &[&str]) -> Output {
    sxf(&["index"]).arg(sheet).arg("-o").arg(index).args(more).output().expect("sxf runs")
}

/// Lists the records of a code by an index.
fn selected(sheet: &Path, code: &str, index: &Path) -> Output {
    sxf(&["select"]).arg(sheet).args(["--code", code, "--index"]).arg(index).output().expect("sxf runs")
}

fn built(sheet: &Path) -> Vec<u8> {
    Index::build(&fs::read(sheet).expect("a sheet"), Setting::Y2017).expect("an accepted sheet").into_bytes()
}

/// The index of a sheet in the old kind, by the document's words: "block number from 0 (2 bytes), entry count (2), 63 entries of 8 bytes (class code
/// 4, record place 3, localisation 1), two zero bytes, and the sum of the first 510 bytes modulo 65536" (02, request 3).
fn old_index(sheet: &Path) -> Vec<u8> {
    let entries: Vec<Entry> = Index::read(built(sheet)).expect("an index").entries().collect();
    let block = |(number, entries): (u16, &[Entry])| {
        let mut block = [number.to_le_bytes(), (entries.len() as u16).to_le_bytes()].concat();
        for entry in entries {
            block.extend(entry.code.to_le_bytes());
            block.extend(&entry.place.to_le_bytes()[..3]);
            block.push(entry.localisation_number as u8);
        }
        block.resize(BLOCK_SIZE, 0);
        put_sum_right(&mut block);
        block
    };
    (0..).zip(entries.chunks(OLD_FULL)).flat_map(block).collect()
}

/// Puts the sum of a block right.
fn put_sum_right(block: &mut [u8]) {
    let sum = block[..SUM].iter().fold(0u16, |sum, &byte| sum.wrapping_add(byte.into()));
    block[SUM..].copy_from_slice(&sum.to_le_bytes());
}

/// A sheet of so many records whose codes are 0, 1 and 2 in turn.
fn sheet_of(records: u32) -> Vec<u8> {
    let mut writer = Writer::new(Head::PLAIN).expect("a plain head");
    for number in 0..records {
        writer.push(&NewRecord::new(number % 3, Reference(number % 2)).part(NewPart::default())).expect("no points");
    }
    writer.write(Setting::Y2017).expect("a sheet")
}

/// The samples, drawn sheets, and sheets around the end of a block, of the new kind and of the old.
fn sheets(folder: &Folder) -> Vec<PathBuf> {
    let drawn = (0..20).map(|number| (format!("drawn-{number}"), drawn::sheet(number)));
    let counted = [56, 57, 63, 64, 127].map(|records| (format!("records-{records}"), sheet_of(records)));
    let made = drawn.chain(counted).map(|(name, sheet)| {
        let file = folder.file(&name);
        fs::write(&file, sheet).expect("a file");
        file
    });
    ACCEPTED.map(sample).into_iter().chain(made).collect()
}

#[test]
fn an_index_is_what_the_library_builds() {
    let (folder, room) = (Folder::new("index-built"), Folder::new("index-built-sheets"));
    let file = folder.file("sheet.idx");
    for sheet in sheets(&room) {
        let output = indexed(&sheet, &file, &["--force"]);
        assert_eq!((status(&output), output.stdout.len(), output.stderr.len()), (0, 0, 0), "{}", sheet.display());
        assert!(fs::read(&file).expect("an index") == built(&sheet), "{}", sheet.display());
        let output = indexed(&sheet, Path::new("-"), &[]);
        assert!((status(&output), &output.stdout) == (0, &built(&sheet)), "{}", sheet.display());
    }
    assert_eq!(folder.names(), ["sheet.idx"]);
    assert_eq!((built(&sample("E")).len(), built(&sample("Q")).len()), (0, BLOCK_SIZE));
}

#[test]
fn a_refused_sheet_has_no_index() {
    let folder = Folder::new("index-refused");
    for name in REFUSED {
        let output = indexed(&sample(name), &folder.file("none.idx"), &[]);
        assert_eq!(status(&output), 1, "{name}");
        assert!(told(&output).contains(&format!("{name}.sxf: refusal ")), "{}", told(&output));
    }
    let too_new = indexed(&sample("dated"), &folder.file("none.idx"), &["--year", "2015"]);
    assert!(told(&too_new).contains("refusal 8 TOO NEW at 100 (0x64): "), "{}", told(&too_new));
    assert_eq!((status(&too_new), folder.names()), (1, vec![]));
    assert_eq!(status(&indexed(&sample("dated"), &folder.file("dated.idx"), &["--year", "2017"])), 0);
}

/// As `sxf write` does.
#[test]
fn an_index_that_is_there_is_replaced_only_by_force() {
    let folder = Folder::new("index-force");
    let file = folder.file("q.idx");
    fs::write(&file, b"what was there").expect("a file");
    let output = indexed(&sample("Q"), &file, &[]);
    assert_eq!(status(&output), 2);
    assert!(told(&output).ends_with("q.idx: cannot be written: it is there already; --force replaces it\n"), "{}", told(&output));
    assert_eq!(fs::read(&file).expect("the file"), b"what was there");
    assert_eq!(status(&indexed(&sample("Q"), &file, &["--force"])), 0);
    assert!(fs::read(&file).expect("the file") == built(&sample("Q")));
    let output = indexed(&sample("Q"), &folder.0, &["--force"]);
    assert!(status(&output) == 2 && told(&output).contains("cannot be written: it is a folder"), "{}", told(&output));
    assert_eq!(folder.names(), ["q.idx"]);
}

/// What is there then is the sheet, and nothing gives it back.
#[test]
fn a_sheet_is_never_replaced_by_its_index() {
    let folder = Folder::new("index-itself");
    let (sheet, link) = (folder.file("q.sxf"), folder.file("link.sxf"));
    fs::copy(sample("Q"), &sheet).expect("a copy");
    symlink("q.sxf", &link).expect("a link");
    for (file, target) in [(&sheet, &sheet), (&sheet, &link), (&link, &sheet)] {
        for more in [&[][..], &["--force"]] {
            let output = indexed(file, target, more);
            assert_eq!(status(&output), 2);
            assert!(told(&output).ends_with("cannot be written: it is the sheet itself\n"), "{}", told(&output));
        }
    }
    assert!(fs::read(&sheet).expect("the sheet") == fs::read(sample("Q")).expect("a sample"));
    assert_eq!(folder.names(), ["link.sxf", "q.sxf"]);
    // Another sheet is a file that is there, as any other.
    fs::copy(sample("P"), folder.file("p.sxf")).expect("a copy");
    assert_eq!(status(&indexed(&sheet, &folder.file("p.sxf"), &["--force"])), 0);
}

/// The sheet may also be what standard input is. Which file comes through a pipe is not known, so that one is replaced.
#[test]
fn a_sheet_on_standard_input_is_never_replaced_by_its_index() {
    let folder = Folder::new("index-input");
    let (sheet, link) = (folder.file("q.sxf"), folder.file("link.sxf"));
    fs::copy(sample("Q"), &sheet).expect("a copy");
    symlink("q.sxf", &link).expect("a link");
    let whole = fs::read(&sheet).expect("the sheet");
    for (target, more) in [(&sheet, &[][..]), (&sheet, &["--force"]), (&link, &["--force"])] {
        let input = fs::File::open(&sheet).expect("the sheet");
        let output = sxf(&["index", "-", "-o"]).arg(target).args(more).stdin(input).output().expect("sxf runs");
        let words = format!("sxf: {}: cannot be written: it is the sheet itself\n", target.display());
        assert_eq!((status(&output), told(&output)), (2, words));
        assert!(fs::read(&sheet).expect("the sheet") == whole);
    }
    assert_eq!(folder.names(), ["link.sxf", "q.sxf"]);
    let piped = fed(sxf(&["index", "-", "--force", "-o"]).arg(&sheet), &whole);
    assert_eq!((status(&piped), fs::read(&sheet).expect("an index")), (0, built(&sample("Q"))));
}

/// An index that nobody takes is not written.
#[test]
fn a_reader_that_goes_is_a_failure_of_an_index() {
    let (reader, writer) = io::pipe().expect("a pipe");
    drop(reader);
    let output = sxf(&["index"]).arg(sample("Q")).args(["-o", "-"]).stdout(writer).output().expect("sxf runs");
    assert_eq!(status(&output), 2);
    assert!(told(&output).contains("standard output: "), "{}", told(&output));
}

/// The lines of `sxf list` that `sxf select` prints: the first, and those whose fourth number is the code.
fn lines_of(listed: &str, code: u32) -> String {
    let has = |line: &str| line.split(' ').nth(3) == Some(&code.to_string());
    listed.lines().enumerate().filter(|(number, line)| *number == 0 || has(line)).map(|(_, line)| format!("{line}\n")).collect()
}

#[test]
fn what_is_selected_is_listed_by_sheet_and_by_index() {
    let (folder, room) = (Folder::new("select"), Folder::new("select-sheets"));
    let index = folder.file("sheet.idx");
    for sheet in sheets(&room) {
        assert_eq!(status(&indexed(&sheet, &index, &["--force"])), 0);
        let listed = out(&on("list", &sheet, &[]));
        let codes = Index::read(built(&sheet)).expect("an index");
        let codes: BTreeSet<u32> = codes.entries().map(|entry| entry.code).take(4).chain([0, 7, u32::MAX]).collect();
        for code in codes {
            let (due, code) = (lines_of(&listed, code), code.to_string());
            let by_sheet = on("select", &sheet, &["--code", &code]);
            assert_eq!((status(&by_sheet), by_sheet.stderr.len()), (0, 0), "{}: {code}", sheet.display());
            assert_eq!(out(&by_sheet), due, "{}: {code}", sheet.display());
            let by_index = selected(&sheet, &code, &index);
            assert_eq!((status(&by_index), out(&by_index)), (0, due), "{}: {code}", sheet.display());
        }
    }
}

/// An old index lists the same, and "new ones are always written in the new kind" (02, request 7).
#[test]
fn an_old_index_is_read_and_never_written() {
    let (folder, room) = (Folder::new("select-old"), Folder::new("select-old-sheets"));
    let index = folder.file("old.idx");
    for sheet in sheets(&room) {
        fs::write(&index, old_index(&sheet)).expect("a file");
        for code in ["0", "1", "31120000"] {
            let (by_sheet, by_index) = (on("select", &sheet, &["--code", code]), selected(&sheet, code, &index));
            assert_eq!((status(&by_index), out(&by_index)), (0, out(&by_sheet)), "{}: {code}", sheet.display());
        }
        assert_eq!(status(&indexed(&sheet, &index, &["--force"])), 0);
        let written = fs::read(&index).expect("an index");
        assert!(written == built(&sheet), "{}", sheet.display());
        assert!(written.chunks(BLOCK_SIZE).all(|block| block[KIND..SUM] == [1, 0]), "{}", sheet.display());
    }
}

/// "A file holds one kind only" (02, request 7).
#[test]
fn an_index_of_two_kinds_is_refused_by_the_first_block_of_the_other() {
    let folder = Folder::new("select-kinds");
    let (sheet, index) = (folder.file("sheet.sxf"), folder.file("sheet.idx"));
    fs::write(&sheet, sheet_of(64)).expect("a file");
    let (old, new) = (old_index(&sheet), built(&sheet));
    for (first, second) in [(&old, &new), (&new, &old)] {
        fs::write(&index, [&first[..BLOCK_SIZE], &second[BLOCK_SIZE..]].concat()).expect("a file");
        is_told(&sheet, "0", &index, 1, "sheet.idx: refusal 18 BAD BLOCK at 512 (0x200): ");
    }
    let mut none = new;
    none[KIND] = 2;
    put_sum_right(&mut none[..BLOCK_SIZE]);
    fs::write(&index, none).expect("a file");
    is_told(&sheet, "0", &index, 1, "sheet.idx: refusal 18 BAD BLOCK at 0 (0x0): ");
}

/// Without a hit the sheet's own line is all that is printed.
#[test]
fn q_has_one_record_of_code_0() {
    let listed = |code| out(&on("select", &sample("Q"), &["--code", code]));
    assert_eq!([listed("0"), listed("1")], ["SXF 494 2384 1\n0 452 42 0 0 0 2 1 1\n", "SXF 494 2384 1\n"]);
}

/// The sheet is checked for the setting, with an index too.
#[test]
fn a_refused_sheet_is_not_selected_from() {
    let folder = Folder::new("select-refused");
    let index = folder.file("dated.idx");
    assert_eq!(status(&indexed(&sample("dated"), &index, &[])), 0);
    let index = index.to_string_lossy().into_owned();
    for more in [&["--code", "0"][..], &["--code", "0", "--index", &index]] {
        for name in REFUSED {
            let output = on("select", &sample(name), more);
            assert_eq!((status(&output), output.stdout.len()), (1, 0), "{name}");
            assert!(told(&output).contains(&format!("{name}.sxf: refusal ")), "{}", told(&output));
        }
        let too_new = on("select", &sample("dated"), &[more, &["--year", "2015"]].concat());
        assert_eq!(status(&too_new), 1);
        assert!(told(&too_new).contains("dated.sxf: refusal 8 TOO NEW at 100 (0x64): "), "{}", told(&too_new));
        let taken = on("select", &sample("dated"), &[more, &["--year", "2017"]].concat());
        assert_eq!(out(&taken), "SXF 492 2197 1\n0 452 40 0 0 0 1 2 0\n");
    }
}

/// A selection that is not made: it ends with this exit status, is told with these words, and prints nothing.
fn is_told(sheet: &Path, code: &str, index: &Path, ends: i32, words: &str) {
    let output = selected(sheet, code, index);
    assert_eq!((status(&output), output.stdout.len()), (ends, 0), "{words}: {output:?}");
    assert!(told(&output).contains(words), "{words}: {}", told(&output));
}

#[test]
fn a_damaged_index_is_refused_by_its_block() {
    let folder = Folder::new("select-damaged");
    let (sheet, index) = (folder.file("sheet.sxf"), folder.file("sheet.idx"));
    fs::write(&sheet, sheet_of(64)).expect("a file");
    let whole = built(&sheet);
    for place in [0, BLOCK_SIZE - 1, BLOCK_SIZE, 2 * BLOCK_SIZE - 1] {
        let mut damaged = whole.clone();
        damaged[place] ^= 1;
        fs::write(&index, damaged).expect("a file");
        let block = place / BLOCK_SIZE * BLOCK_SIZE;
        let words = format!("sheet.idx: refusal 18 BAD BLOCK at {block} ({block:#x}): the block at this byte of the code index ");
        is_told(&sheet, "0", &index, 1, &words);
    }
    fs::write(&index, &whole[..whole.len() - 1]).expect("a file");
    is_told(&sheet, "0", &index, 1, "sheet.idx: refusal 18 BAD BLOCK at 512 (0x200): ");
    is_told(&sheet, "0", &folder.file("none.idx"), 2, "none.idx: No such file");
}

/// The index of a sample, with a byte more at a place in each of these, and the sum to match.
fn changed(name: &str, places: &[usize]) -> Vec<u8> {
    let mut index = built(&sample(name));
    for &place in places {
        index[place] += 1;
    }
    put_sum_right(&mut index);
    index
}

const OTHER: &str = "the index does not belong to this sheet: ";
const AGAIN: &str = "; build it again by `sxf index`\n";

/// A wrong record is never listed: what the index has under the code is held against the sheet.
#[test]
fn an_index_of_another_sheet_is_told() {
    let folder = Folder::new("select-other");
    let index = folder.file("old.idx");
    let own = "where the sheet has record 0 at 452 (0x1c4), code 0, localisation 2";
    for (place, code, has) in [
        (CODE, "1", "at 452 (0x1c4), code 1, localisation 2"),
        (PLACE, "0", "at 453 (0x1c5), code 0, localisation 2"),
        (LOCALISATION, "0", "at 452 (0x1c4), code 0, localisation 3"),
    ] {
        fs::write(&index, changed("Q", &[place])).expect("a file");
        is_told(&sample("Q"), code, &index, 2, &format!("old.idx: {OTHER}it has record 0 {has}, {own}{AGAIN}"));
    }
    // The first record is the sheet's, but nothing of it is printed, since the second is not.
    fs::write(&index, changed("mark-small", &[PLACE + ENTRY_SIZE])).expect("a file");
    is_told(&sample("mark-small"), "31120000", &index, 2, "where the sheet has record 1 at 524 (0x20c), code 31120000, ");
}

/// Also where the code has no hit, or an index was cut at the end of a block, where it is an index all the same.
#[test]
fn an_index_of_more_or_fewer_records_is_told() {
    let folder = Folder::new("select-count");
    let (sheet, index) = (folder.file("sheet.sxf"), folder.file("other.idx"));
    fs::write(&sheet, sheet_of(64)).expect("a file");
    fs::write(&index, &built(&sheet)[..BLOCK_SIZE]).expect("a file");
    let told =
        |entries, records| format!("other.idx: {OTHER}its entries are {entries}, where the sheet's records are {records}{AGAIN}");
    is_told(&sheet, "0", &index, 2, &told(BLOCK_FULL, 64));
    is_told(&sample("Q"), "9", &index, 2, &told(BLOCK_FULL, 1));
    is_told(&sample("E"), "0", &index, 2, &told(BLOCK_FULL, 0));
    fs::write(&index, []).expect("a file");
    is_told(&sheet, "0", &index, 2, &told(0, 64));
    assert_eq!(out(&selected(&sample("E"), "0", &index)), "SXF 452 795 0\n");
}

/// Nothing tells of a record that the index has under another code. Building it again does.
#[test]
fn a_record_that_an_index_leaves_out_is_not_noticed() {
    let folder = Folder::new("select-missing");
    let index = folder.file("old.idx");
    fs::write(&index, changed("mark-small", &[CODE])).expect("a file");
    let listed = selected(&sample("mark-small"), "31120000", &index);
    assert_eq!((status(&listed), out(&listed)), (0, "SXF 572 6033 2\n1 524 48 31120000 1 0 1 4 0\n".to_string()));
    let again = indexed(&sample("mark-small"), Path::new("-"), &[]);
    assert!(again.stdout != fs::read(&index).expect("an index"));
}

/// As long as the numbers of its blocks go, with a hole in place of most of its entries; what comes after that is a bad block.
#[test]
fn an_index_is_read_to_its_longest() {
    let folder = Folder::new("select-longest");
    let index = folder.file("long.idx");
    let mut blocks = vec![0; LONGEST];
    for (number, block) in (0..=u16::MAX).zip(blocks.chunks_mut(BLOCK_SIZE)) {
        block[..2].copy_from_slice(&number.to_le_bytes());
        block[2] = BLOCK_FULL as u8;
        block[KIND] = 1;
        put_sum_right(block);
    }
    fs::write(&index, &blocks).expect("a file");
    is_told(&sample("Q"), "0", &index, 2, "its entries are 3670016, where the sheet's records are 1");
    // No byte after the longest is on the disk, and all but the first of them are not read.
    fs::File::options().write(true).open(&index).and_then(|file| file.set_len(1 << 40)).expect("a file with a hole");
    is_told(&sample("Q"), "0", &index, 1, "long.idx: refusal 18 BAD BLOCK at 33554432 (0x2000000): ");
    is_told(&sample("Q"), "0", Path::new("/dev/zero"), 1, "/dev/zero: refusal 18 BAD BLOCK at 0 (0x0): ");
}

#[test]
fn sheet_or_index_may_come_on_standard_input() {
    let folder = Folder::new("select-input");
    let index = folder.file("q.idx");
    let sheet = fs::read(sample("Q")).expect("a sample");
    let due = "SXF 494 2384 1\n0 452 42 0 0 0 2 1 1\n";
    let made = fed(&mut sxf(&["index", "-", "-o", "-"]), &sheet);
    assert!(made.stdout == built(&sample("Q")));
    fs::write(&index, &made.stdout).expect("a file");
    assert_eq!(out(&fed(sxf(&["select", "-", "--code", "0", "--index"]).arg(&index), &sheet)), due);
    assert_eq!(out(&fed(sxf(&["select", "--code", "0", "--index", "-"]).arg(sample("Q")), &made.stdout)), due);
    let both = fed(&mut sxf(&["select", "-", "--code", "0", "--index", "-"]), &sheet);
    assert_eq!((status(&both), both.stdout.len()), (2, 0));
    assert_eq!(told(&both), "sxf: the sheet and the index are both -, and there is one standard input\n");
}

#[test]
fn a_code_is_a_whole_number() {
    for code in ["4294967296", "-1", "0x10", "1.0", "well", ""] {
        for words in [&[&*format!("--code={code}")][..], &["--code", code]] {
            for output in ["select", "find"].map(|command| on(command, &sample("Q"), words)) {
                assert_eq!(status(&output), 2, "{words:?}");
                assert!(told(&output).contains("not a class code; they are whole numbers, 0 to 4294967295"), "{}", told(&output));
            }
        }
    }
    for words in [&["select", "x"][..], &["index", "x"], &["select", "--code", "0"], &["index", "-o", "x"]] {
        let output = sxf(words).output().expect("sxf runs");
        assert_eq!(status(&output), 2, "{words:?}");
        told(&output);
    }
}

#[test]
fn help_says_what_an_index_cannot_tell() {
    let help = |word: &str| out(&sxf(&[word, "--help"]).output().expect("sxf runs"));
    for word in ["index", "select"] {
        let told = "does not say which sheet it belongs to, and its format cannot tell: keep it beside its sheet, and build it again after each \
                    change";
        assert!(help(word).contains(told), "{}", help(word));
    }
    let piped = "never over the sheet that FILE names or that standard input is; a sheet that comes through a pipe is not known";
    assert!(help("index").contains(piped), "{}", help("index"));
    assert!(help("index").contains("`sxf index FILE -o - | cmp - INDEX` tells whether it is that of the sheet"));
    assert!(help("select").contains("It is not noticed where the index has a record of the code under another one"));
}
