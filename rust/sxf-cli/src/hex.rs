//! Bytes in the JSON lines: hexadecimal digits, two a byte.
use serde::de::{self, Deserializer, Visitor};
use serde::{Deserialize, Serialize, Serializer};
use std::borrow::Cow;
use std::fmt;

/// Bytes as hexadecimal digits, two a byte.
pub struct Hex<'a>(pub Cow<'a, [u8]>);

impl<'a> Hex<'a> {
    pub fn of(bytes: &'a [u8]) -> Hex<'a> {
        Hex(Cow::Borrowed(bytes))
    }
}

impl fmt::Display for Hex<'_> {
    fn fmt(&self, f: &mut fmt::Formatter<'_>) -> fmt::Result {
        self.0.iter().try_for_each(|byte| write!(f, "{byte:02x}"))
    }
}

impl Serialize for Hex<'_> {
    fn serialize<S: Serializer>(&self, serializer: S) -> Result<S::Ok, S::Error> {
        serializer.collect_str(self)
    }
}

impl<'de> Deserialize<'de> for Hex<'_> {
    fn deserialize<D: Deserializer<'de>>(deserializer: D) -> Result<Self, D::Error> {
        deserializer.deserialize_str(Digits).map(|bytes| Hex(Cow::Owned(bytes)))
    }
}

struct Digits;

impl Visitor<'_> for Digits {
    type Value = Vec<u8>;

    fn expecting(&self, f: &mut fmt::Formatter<'_>) -> fmt::Result {
        f.write_str("hexadecimal digits, two a byte")
    }

    fn visit_str<E: de::Error>(self, digits: &str) -> Result<Vec<u8>, E> {
        bytes_of(digits).ok_or_else(|| E::invalid_value(de::Unexpected::Str(digits), &self))
    }
}

fn bytes_of(digits: &str) -> Option<Vec<u8>> {
    let (pairs, odd) = digits.as_bytes().as_chunks();
    let byte = |&[high, low]: &[u8; 2]| Some(digit(high)? << 4 | digit(low)?);
    odd.is_empty().then(|| pairs.iter().map(byte).collect()).flatten()
}

fn digit(digit: u8) -> Option<u8> {
    char::from(digit).to_digit(16).and_then(|value| u8::try_from(value).ok())
}

#[cfg(test)]
mod tests {
    use super::*;

    #[test]
    fn bytes_go_to_and_fro() {
        let all: Vec<u8> = (0..=255).collect();
        assert_eq!(bytes_of(&Hex::of(&all).to_string()), Some(all));
        assert_eq!(bytes_of("fFA0"), Some(vec![0xFF, 0xA0]));
        assert_eq!((bytes_of(""), bytes_of("f"), bytes_of("fg"), bytes_of("é")), (Some(vec![]), None, None, None));
    }
}
