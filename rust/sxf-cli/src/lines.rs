//! The values of JSON lines, one after another. A value may go over several lines, since that is how tools print it for people.
use serde::Deserialize;
use std::io::{self, BufRead, BufReader, Read, Take};
use sxf::LIMIT;

/// More than the lines of any sheet take: an integer of 2 bytes takes 27 in a line of its own, with four spaces for each bracket around it.
const LONGEST: u64 = 64 * LIMIT as u64;

/// What a value may begin with that is none of it, and what is told then.
const NOT_LINES: [(&[u8], &str); 4] = [
    (&[0xEF, 0xBB, 0xBF], "begins with a byte-order mark of UTF-8; save the lines as UTF-8 without one"),
    (&[0xFF, 0xFE], "begins with a byte-order mark of UTF-16; save the lines as UTF-8 without one"),
    (&[0xFE, 0xFF], "begins with a byte-order mark of UTF-16; save the lines as UTF-8 without one"),
    (b"SXF\0", "is a sheet's, and not its lines; `sxf table` prints them"),
];

pub struct Lines<R> {
    input: BufReader<Take<R>>,
    /// How many lines have been read.
    read: usize,
    /// The value's lines.
    value: Vec<u8>,
    /// The number of the value's first line.
    first: usize,
}

impl<R: Read> Lines<R> {
    pub fn new(input: R) -> Lines<R> {
        Lines { input: BufReader::new(input.take(LONGEST)), read: 0, value: Vec::new(), first: 0 }
    }

    /// The number of the first line of the value that was read last.
    pub fn first(&self) -> usize {
        self.first
    }

    /// Reads the next value's lines; false at the end. Empty lines before it are passed over.
    pub fn next(&mut self) -> Result<bool, String> {
        self.value.clear();
        let mut open = Open::default();
        while self.value.is_empty() || open.goes_on() {
            let start = self.value.len();
            if self.line()? == 0 {
                break;
            }
            open.pass(&self.value[start..]);
            if start == 0 && self.value.trim_ascii().is_empty() {
                self.value.clear();
            } else if start == 0 {
                self.first = self.read;
            }
        }
        Ok(!self.value.is_empty())
    }

    /// Adds a line to the value: how many bytes it has.
    fn line(&mut self) -> Result<usize, String> {
        let begun = !self.value.is_empty();
        let length = self.input.read_until(b'\n', &mut self.value).map_err(|error: io::Error| error.to_string())?;
        if self.input.get_ref().limit() == 0 {
            return Err(format!("{LONGEST} bytes or more, which is longer than the lines of any sheet"));
        }
        self.read += usize::from(length != 0);
        match NOT_LINES.iter().find(|(bytes, _)| !begun && self.value.starts_with(bytes)) {
            Some((_, what)) => Err(format!("line {} {what}", self.read)),
            None => self.characters(length).map(|()| length),
        }
    }

    /// Sees that the last line, of so many bytes, is UTF-8: a file of Cyrillic text may have been saved in another coding.
    fn characters(&self, length: usize) -> Result<(), String> {
        let line = &self.value[self.value.len() - length..];
        str::from_utf8(line).map(drop).map_err(|error| {
            let place = error.valid_up_to();
            format!("line {}: column {}: byte {:#04x} is not UTF-8; save the lines as UTF-8", self.read, place + 1, line[place])
        })
    }

    /// Parses the value that was read last. A line number that the parser gives counts from the value's first line.
    pub fn parsed<'a, T: Deserialize<'a>>(&'a self) -> Result<T, String> {
        serde_json::from_slice(&self.value).map_err(|error| {
            let told = error.to_string();
            let what = told.rsplit_once(" at line ").map_or(told.as_str(), |(what, _)| what);
            format!("line {}: column {}: {what}", self.first + error.line().saturating_sub(1), error.column())
        })
    }

    /// What is wrong with the value that was read last, with its line.
    pub fn told(&self, what: &str) -> String {
        format!("line {}: {what}", self.first)
    }
}

/// What is still open after the bytes passed so far. Brackets inside a string do not count.
#[derive(Default)]
struct Open {
    brackets: usize,
    string: bool,
    escape: bool,
}

impl Open {
    /// Whether the value goes on behind a line's end. A string that is open there does not: that is an error, and is left to the parser.
    fn goes_on(&self) -> bool {
        self.brackets > 0 && !self.string
    }

    fn pass(&mut self, bytes: &[u8]) {
        for &byte in bytes {
            match byte {
                _ if self.escape => self.escape = false,
                b'\\' if self.string => self.escape = true,
                b'"' => self.string = !self.string,
                _ if self.string => {}
                b'{' | b'[' => self.brackets += 1,
                b'}' | b']' => self.brackets = self.brackets.saturating_sub(1),
                _ => {}
            }
        }
    }
}
