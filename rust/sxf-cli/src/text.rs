//! Texts of the JSON lines. A text is given as characters where they turn back into its bytes, else as bytes, under another name.
use crate::hex::Hex;
use std::borrow::Cow;
use sxf::{Coding, Item, NewItem, NoCharacter, Text, Value};

/// The two fields of a text, of which one is there: that of bytes where it is asked for.
pub fn fields<'a>(text: &Text<'a>, as_bytes: bool) -> (Option<String>, Option<Hex<'a>>) {
    match if as_bytes { None } else { characters(text) } {
        Some(string) => (Some(string), None),
        None => (None, Some(Hex::of(text.bytes))),
    }
}

fn characters(text: &Text<'_>) -> Option<String> {
    let string = text.string().ok()?;
    (text.coding.bytes(&string).as_deref() == Ok(text.bytes)).then_some(string)
}

/// The characters of an item's text, where they and its type alone give its scale byte and its value again.
pub fn of_item(item: &Item<'_>) -> Option<String> {
    let Value::Text(text) = item.value() else { return None };
    let string = text.string().ok()?;
    let again = NewItem::string(item.code, item.kind, &string).ok()?;
    (again == NewItem::from(*item)).then_some(string)
}

/// A text as a line gives it.
pub enum Given<'a> {
    Characters(&'a str),
    Bytes(&'a [u8]),
}

impl<'a> Given<'a> {
    /// Which of its two fields a line has; none where it has neither. Which of both would hold cannot be said.
    pub fn of(name: &str, characters: &'a Option<String>, bytes: &'a Option<Hex<'_>>) -> Result<Option<Given<'a>>, String> {
        match (characters, bytes) {
            (Some(_), Some(_)) => Err(format!("{name} and {name}_bytes, where only one of them should be")),
            (Some(string), None) => Ok(Some(Given::Characters(string))),
            (None, Some(Hex(bytes))) => Ok(Some(Given::Bytes(bytes))),
            (None, None) => Ok(None),
        }
    }

    /// Its bytes in a coding.
    pub fn bytes(self, coding: Coding) -> Result<Cow<'a, [u8]>, NoCharacter> {
        match self {
            Given::Characters(string) => coding.bytes(string).map(Cow::Owned),
            Given::Bytes(bytes) => Ok(Cow::Borrowed(bytes)),
        }
    }
}

#[cfg(test)]
mod tests {
    use super::*;

    /// A scale byte or closing zeros that the characters would not give again; no accepted sheet has such an item.
    #[test]
    fn an_item_is_given_as_text_only_where_it_comes_back() {
        let text = |kind, scale, bytes: &[u8]| of_item(&Item { code: 1, kind, scale, bytes });
        assert_eq!(text(0, 2, b"AB\0").as_deref(), Some("AB"));
        assert_eq!(text(128, 0xFF, b"A\0\0\0").as_deref(), Some("A"));
        for (kind, scale, bytes) in
            [(0, 3, &b"AB\0"[..]), (0, 1, b"AB"), (126, 1, b"\x98\0"), (127, 1, b"A\0\0\x01"), (128, 1, b"A\0\0\0"), (2, 0, b"AB")]
        {
            assert_eq!(text(kind, scale, bytes), None, "type {kind}, scale {scale}, {bytes:?}");
        }
    }
}
