//! One sheet read in a process of its own, so that a reader which dies or does not come back is seen as such.

use crate::gdal::{self, Feature, Field, Gdal};
use crate::SETTING;
use std::hash::{DefaultHasher, Hash, Hasher};
use std::io::Read;
use std::os::unix::process::ExitStatusExt;
use std::process::{Command, Stdio};
use std::time::{Duration, Instant};

/// How long a reader may take for one small sheet, and how much memory it may have.
const SECONDS: u64 = 5;
const MEMORY: u64 = 4 << 30;

#[derive(Debug, PartialEq)]
pub enum End<T> {
    Answered(T),
    Died(i32),
    Hung,
}

/// What GDAL made of a sheet.
#[derive(Debug, PartialEq)]
pub struct Opened {
    pub opened: bool,
    pub warnings: u64,
    pub errors: u64,
    pub features: u64,
    /// Of all that the features hold.
    pub digest: u64,
    /// The points, texts and values, for people to read.
    pub points: String,
    pub texts: String,
    pub values: String,
}

pub fn points(parts: &[Vec<[f64; 3]>]) -> String {
    let point = |[a, b, c]: &[f64; 3]| format!("{a} {b} {c}");
    let part = |points: &Vec<[f64; 3]>| match points.len() {
        0..=4 => points.iter().map(point).collect::<Vec<_>>().join(", "),
        count => format!("{count} points"),
    };
    parts.iter().map(part).collect::<Vec<_>>().join(" / ")
}

/// Long texts are told by their length.
pub fn quoted(text: &str) -> String {
    match text.chars().count() {
        0..=20 => format!("'{}'", text.replace(|c: char| c.is_control() || c == '|', "?")),
        count => format!("{count} letters"),
    }
}

fn told(features: &[Feature], wanted: impl Fn(&str) -> bool) -> String {
    let mut told = Vec::new();
    for (name, field) in features.iter().flat_map(|f| &f.fields).filter(|f| wanted(&f.0)) {
        let value = match field {
            Field::Number(number) => number.to_string(),
            Field::Text(text) => quoted(text),
        };
        told.push(format!("{name} {value}"));
    }
    told.join(", ")
}

/// The process's part for GDAL: prints what `ask_gdal` reads.
pub fn gdal(gdal: &Gdal, path: &str) {
    limit_memory();
    let features = gdal.read(path);
    let (warnings, errors) = gdal::said();
    println!("{}\n{warnings}\n{errors}", u8::from(features.is_some()));
    let features = features.unwrap_or_default();
    let mut digest = DefaultHasher::new();
    format!("{features:?}").hash(&mut digest);
    println!("{}\n{}", features.len(), digest.finish());
    let shown: Vec<String> = features.iter().map(|f| format!("{} {}", f.kind, points(&f.parts))).collect();
    println!("{}", shown.join("; ").chars().take(2000).collect::<String>().replace('\n', " "));
    println!("{}", told(&features, |name| name == "TEXT" || name == "ANGLE").replace('\n', " "));
    println!("{}", told(&features, |name| name.starts_with("SC_")).replace('\n', " "));
}

/// The process's part for the archive: prints number, place and year.
pub fn ours(path: &str) {
    limit_memory();
    let sheet = std::fs::read(path).expect("the sheet's file");
    match sxf::Table::unfold(&sheet, SETTING) {
        Ok(_) => println!("0 0 0"),
        Err(refusal) => println!("{} {} {}", refusal.number, refusal.place, refusal.year),
    }
}

fn limit_memory() {
    extern "C" {
        fn setrlimit(resource: i32, limits: *const [u64; 2]) -> i32;
    }
    const ADDRESS_SPACE: i32 = 9;
    unsafe { setrlimit(ADDRESS_SPACE, &[MEMORY, MEMORY]) };
}

/// Runs this program again with two arguments and waits for what it prints.
fn ask(who: &str, path: &str) -> End<String> {
    let program = std::env::current_exe().expect("the program's own file");
    let mut child =
        Command::new(program).args([who, path]).stdout(Stdio::piped()).stderr(Stdio::null()).spawn().expect("a child process");
    let start = Instant::now();
    let status = loop {
        if let Some(status) = child.try_wait().expect("the child's status") {
            break status;
        }
        if start.elapsed() > Duration::from_secs(SECONDS) {
            child.kill().expect("the child ends");
            child.wait().expect("the child's status");
            return End::Hung;
        }
        std::thread::sleep(Duration::from_millis(1));
    };
    let mut said = String::new();
    child.stdout.take().expect("the child's output").read_to_string(&mut said).expect("text");
    match status.signal() {
        Some(signal) => End::Died(signal),
        None if status.success() => End::Answered(said),
        None => End::Died(status.code().unwrap_or(-1)),
    }
}

impl<T> End<T> {
    fn map<U>(self, with: impl FnOnce(T) -> U) -> End<U> {
        match self {
            End::Answered(answer) => End::Answered(with(answer)),
            End::Died(signal) => End::Died(signal),
            End::Hung => End::Hung,
        }
    }
}

pub fn ask_gdal(path: &str) -> End<Opened> {
    ask("gdal", path).map(|said| {
        let lines: Vec<&str> = said.split('\n').collect();
        let number = |line: usize| lines[line].parse().expect("a number");
        let text = |line: usize| lines.get(line).unwrap_or(&"").to_string();
        Opened {
            opened: number(0) != 0,
            warnings: number(1),
            errors: number(2),
            features: number(3),
            digest: number(4),
            points: text(5),
            texts: text(6),
            values: text(7),
        }
    })
}

/// Number, place and year; number 0 for an accepted sheet.
pub fn ask_ours(path: &str) -> End<[u64; 3]> {
    ask("ours", path).map(|said| {
        let mut numbers = said.split_whitespace().map(|n| n.parse().expect("a number"));
        std::array::from_fn(|_| numbers.next().expect("three numbers"))
    })
}
