//! Texts for people: in quotation marks, with the coding.
use sxf::{Stray, Text};

/// A text and its coding, `"Газ" (KOI-8)`. What has no character is shown as an escape, and besides it what [acts](acts) on the line, or would be
/// taken for an escape or for the end of the text.
pub fn quoted(text: &Text<'_>) -> String {
    let mut told = String::new();
    let (mut rest, width) = (*text, text.coding.width());
    while let Err(none) = rest.string() {
        let place = none.index * width;
        told += &escaped(&Text { bytes: rest.bytes.get(..place).unwrap_or_default(), ..rest });
        told += &stray(none.what);
        // In UTF-16 there may be one byte left, half of a unit.
        rest.bytes = rest.bytes.get(place + width..).unwrap_or_default();
    }
    format!("\"{told}{}\" ({})", escaped(&rest), text.coding)
}

/// A text of which all bytes have characters.
fn escaped(text: &Text<'_>) -> String {
    text.string().iter().flat_map(|string| string.chars()).map(character).collect()
}

fn character(character: char) -> String {
    match character {
        '"' | '\\' => format!("\\{character}"),
        _ => visible(character),
    }
}

/// Whether a character acts on the line that it stands in, and is not seen in it: it ends the line, steers a terminal, turns the direction of
/// what follows, or has no width; or it is none. Of the three codings of one byte only the controls of ASCII do.
pub fn acts(character: char) -> bool {
    let format = ['\u{61C}'..='\u{61C}', '\u{200B}'..='\u{200F}', '\u{2028}'..='\u{202E}', '\u{2060}'..='\u{206F}'];
    let none = ['\u{FEFF}'..='\u{FEFF}', '\u{FFFE}'..='\u{FFFF}'];
    character.is_control() || format.iter().chain(&none).any(|range| range.contains(&character))
}

/// A character, or its escape where it acts on the line.
fn visible(character: char) -> String {
    if acts(character) {
        character.escape_default().to_string()
    } else {
        character.to_string()
    }
}

/// A line with what acts on it as escapes.
pub fn visible_line(line: &str) -> String {
    line.chars().map(visible).collect()
}

fn stray(what: Stray) -> String {
    match what {
        Stray::Byte(byte) => format!("\\x{byte:02x}"),
        Stray::Unit(unit) => format!("\\u{{{unit:x}}}"),
        Stray::Character(character) => character.escape_unicode().to_string(),
    }
}

#[cfg(test)]
mod tests {
    use super::*;
    use sxf::Coding;

    fn shown(coding: Coding, bytes: &[u8]) -> String {
        quoted(&Text { coding, bytes })
    }

    /// A text of UTF-16 as its units.
    fn utf16(units: &[u16], more: &[u8]) -> String {
        let bytes: Vec<u8> = units.iter().flat_map(|unit| unit.to_le_bytes()).chain(more.iter().copied()).collect();
        shown(Coding::Utf16, &bytes)
    }

    #[test]
    fn texts_are_shown_in_their_characters() {
        assert_eq!(shown(Coding::Dos, &[0x83, 0xA0, 0xA7, 0x20, 0xFC, 0xB3, 0xFF]), "\"Газ №│\u{A0}\" (DOS)");
        assert_eq!(shown(Coding::Windows, &[0xC3, 0xE0, 0xE7, 0xA0, 0xB9, 0xAD]), "\"Газ\u{A0}№\u{AD}\" (Windows)");
        assert_eq!(shown(Coding::Koi8, &[0xE7, 0xC1, 0xDA, 0x80]), "\"Газ─\" (KOI-8)");
        assert_eq!(utf16(&[0x413, 0x430, 0x437, 0xD83D, 0xDE00], &[]), "\"Газ😀\" (UTF-16)");
        assert_eq!(shown(Coding::Windows, b""), "\"\" (Windows)");
    }

    #[test]
    fn what_has_no_character_is_escaped() {
        assert_eq!(shown(Coding::Windows, b"\x98\xC3\x98\x98\xE0\x98"), r#""\x98Г\x98\x98а\x98" (Windows)"#);
        assert_eq!(utf16(&[0xD800, 0x413, 0xDC00, 0xD83D, 0xDE00, 0xDBFF], &[]), r#""\u{d800}Г\u{dc00}😀\u{dbff}" (UTF-16)"#);
        assert_eq!(utf16(&[0x413, 0xDC00], &[0x0A]), r#""Г\u{dc00}\x0a" (UTF-16)"#);
    }

    #[test]
    fn controls_quotation_marks_and_backslashes_are_escaped() {
        assert_eq!(shown(Coding::Dos, b"a\x00005\n\t\r\x1B[2J\x7F"), r#""a\u{0}005\n\t\r\u{1b}[2J\u{7f}" (DOS)"#);
        assert_eq!(shown(Coding::Windows, br#""\x98" 'a'"#), r#""\"\\x98\" 'a'" (Windows)"#);
        assert_eq!(utf16(&[0x85, 0x9B], &[]), r#""\u{85}\u{9b}" (UTF-16)"#);
    }

    /// Ends of lines, marks of direction, what has no width, and what is no character; their neighbours are shown.
    #[test]
    fn what_acts_on_the_line_is_escaped() {
        let acting = [0x61C, 0x200B, 0x200F, 0x2028, 0x202E, 0x2060, 0x206F, 0xFEFF, 0xFFFE, 0xFFFF];
        for unit in acting {
            assert_eq!(utf16(&[unit], &[]), format!("\"\\u{{{unit:x}}}\" (UTF-16)"));
        }
        let shown = "\u{61B}\u{200A}\u{2010}\u{2027}\u{202F}\u{205F}\u{2070}\u{FEFE}\u{FFFD}";
        assert_eq!(utf16(&shown.encode_utf16().collect::<Vec<_>>(), &[]), format!("\"{shown}\" (UTF-16)"));
    }

    /// Every byte of the three codings: the one without a character is the one that is shown as \x.
    #[test]
    fn one_byte_of_all_has_no_character() {
        for (coding, none) in [(Coding::Dos, 0), (Coding::Windows, 1), (Coding::Koi8, 0)] {
            let all: Vec<u8> = (0..=255).collect();
            let told = shown(coding, &all);
            assert_eq!(told.matches("\\x").count(), none, "{told}");
            assert!(!told.chars().any(char::is_control), "{told}");
        }
    }

    /// 8 MiB, and no character in it. If each escape had the rest of the text looked through, this would take hours.
    #[test]
    fn a_long_text_without_characters_is_shown() {
        let units = vec![0xDC00; 4 << 20];
        assert_eq!(utf16(&units, &[]).len(), units.len() * r"\u{dc00}".len() + "\"\" (UTF-16)".len());
    }
}
