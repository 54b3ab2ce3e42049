//! Runs the command, in folders of each test's own.
use std::fs;
use std::io::Write;
use std::path::{Path, PathBuf};
use std::process::{Command, Output, Stdio};

pub const ACCEPTED: [&str; 18] = [
    "E",
    "P",
    "Q",
    "head",
    "labels",
    "heights",
    "floating",
    "items",
    "long",
    "mark-small",
    "frame",
    "dated",
    "cyrillic-dos",
    "cyrillic-windows",
    "cyrillic-koi8",
    "no-character",
    "dirty-tail",
    "old-letters",
];
/// Those of them that have old letters after the first zero of a text field.
pub const DIRTY: [&str; 2] = ["dirty-tail", "old-letters"];
pub const REFUSED: [&str; 8] = ["sum-wrong", "too-short", "not-sxf", "no-zero", "closing", "graphics", "left-over", "n1-not-zero"];

/// The top of the repository.
pub fn top() -> PathBuf {
    PathBuf::from(env!("CARGO_MANIFEST_DIR")).join("../..")
}

pub fn sample(name: &str) -> PathBuf {
    top().join("samples").join(name).with_extension("sxf")
}

/// A folder of a test's own, gone when the test ends.
pub struct Folder(pub PathBuf);

impl Folder {
    pub fn new(name: &str) -> Folder {
        let path = Path::new(env!("CARGO_TARGET_TMPDIR")).join(name);
        let _ = fs::remove_dir_all(&path);
        fs::create_dir_all(&path).expect("a folder");
        Folder(path)
    }

    pub fn file(&self, name: &str) -> PathBuf {
        self.0.join(name)
    }

    pub fn names(&self) -> Vec<String> {
        let name = |entry: std::io::Result<fs::DirEntry>| entry.expect("an entry").file_name().to_string_lossy().into_owned();
        let mut names: Vec<String> = fs::read_dir(&self.0).expect("the folder").map(name).collect();
        names.sort();
        names
    }
}

impl Drop for Folder {
    fn drop(&mut self) {
        let _ = fs::remove_dir_all(&self.0);
    }
}

pub fn sxf(words: &[&str]) -> Command {
    let mut command = Command::new(env!("CARGO_BIN_EXE_sxf"));
    command.args(words);
    command
}

pub fn on(word: &str, file: &Path, more: &[&str]) -> Output {
    sxf(&[word]).arg(file).args(more).output().expect("sxf runs")
}

pub fn status(output: &Output) -> i32 {
    output.status.code().expect("an exit status")
}

pub fn out(output: &Output) -> String {
    String::from_utf8(output.stdout.clone()).expect("UTF-8")
}

/// The one line on standard error.
pub fn told(output: &Output) -> String {
    let told = String::from_utf8(output.stderr.clone()).expect("UTF-8");
    assert_eq!(told.lines().count(), 1, "one line: {told:?}");
    assert!(told.starts_with("sxf: ") && told.ends_with('\n'), "{told:?}");
    told
}

/// Lines of a sample's table, with something put in place of something else.
pub fn changed_in(name: &str, from: &str, to: &str) -> Vec<u8> {
    let table = out(&on("table", &sample(name), &[]));
    assert!(table.contains(from), "{from}");
    table.replace(from, to).into_bytes()
}

/// Lines that are not written: it ends with this exit status, is told with these words, and leaves no file in the folder.
pub fn is_told(folder: &Folder, ends: i32, lines: &[u8], words: &str) {
    let output = write(lines, &folder.file("none.sxf"), &[]);
    assert_eq!(status(&output), ends, "{words}: {output:?}");
    assert!(told(&output).contains(words), "{words}: {}", told(&output));
    assert_eq!(folder.names(), [""; 0], "{words}");
}

/// Writes a sheet from these lines.
pub fn write(json: &[u8], file: &Path, more: &[&str]) -> Output {
    fed(sxf(&["write", "-", "-o"]).arg(file).args(more), json)
}

/// Runs the command in a folder, by a shell that redirects as is said.
pub fn redirected(folder: &Folder, how: &str, words: &[&str]) -> Output {
    let mut shell = Command::new("sh");
    shell.args(["-c", &format!("exec \"$@\" {how}"), "sh", env!("CARGO_BIN_EXE_sxf")]).args(words);
    shell.current_dir(&folder.0).output().expect("sh runs")
}

/// Runs a command that reads these bytes to their end before it prints.
pub fn fed(command: &mut Command, input: &[u8]) -> Output {
    command.stdin(Stdio::piped()).stdout(Stdio::piped()).stderr(Stdio::piped());
    let mut child = command.spawn().expect("sxf runs");
    // It may have refused what came before, and not read the rest.
    let _ = child.stdin.take().expect("its input").write_all(input);
    child.wait_with_output().expect("sxf ends")
}
