//! The strings of the JSON lines that are printed: what acts on a line is an escape there too, as JSON has it, so that printing a table steers no
//! terminal, and a line is one line for every tool.
use crate::quoted::acts;
use serde_json::ser::Formatter;
use std::io::{self, Write};

pub struct Escapes;

impl Formatter for Escapes {
    fn write_string_fragment<W: ?Sized + Write>(&mut self, writer: &mut W, fragment: &str) -> io::Result<()> {
        let mut rest = fragment;
        while let Some((place, character)) = rest.char_indices().find(|&(_, character)| acts(character)) {
            writer.write_all(&rest.as_bytes()[..place])?;
            character.encode_utf16(&mut [0; 2]).iter().try_for_each(|unit| write!(writer, "\\u{unit:04x}"))?;
            rest = &rest[place + character.len_utf8()..];
        }
        writer.write_all(rest.as_bytes())
    }
}

#[cfg(test)]
mod tests {
    use super::*;
    use serde::Serialize;

    fn printed(string: &str) -> String {
        let mut out = Vec::new();
        string.serialize(&mut serde_json::Serializer::with_formatter(&mut out, Escapes)).expect("a string");
        String::from_utf8(out).expect("UTF-8")
    }

    #[test]
    fn what_acts_on_a_line_is_an_escape() {
        assert_eq!(printed("Газ\u{9B}31m\u{7F}\u{85}\u{2028}x\u{202E}"), r#""Газ\u009b31m\u007f\u0085\u2028x\u202e""#);
        assert_eq!(printed("\"\\\n\0 №\u{A0}😀"), "\"\\\"\\\\\\n\\u0000 №\u{A0}😀\"");
    }

    /// Every character comes back, and none that acts is printed.
    #[test]
    fn every_character_comes_back() {
        let all: String = (0..=0x10FFFF).filter_map(char::from_u32).collect();
        let line = printed(&all);
        assert!(!line.contains(acts));
        assert_eq!(serde_json::from_str::<String>(&line).ok(), Some(all));
    }
}
