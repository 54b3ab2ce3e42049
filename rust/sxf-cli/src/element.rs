//! Numbers of the JSON lines. A tool that keeps doubles does not spoil them.
//!
//! Such a tool reads a number as a double, and prints some decimal that reads as the same double: `3` may come back as `3.0`, and `1e9` as
//! `1000000000`. So a number is the double that it reads as, and not how it is written.
use serde::de::{Deserializer, Error};
use serde::{Deserialize, Serialize, Serializer};
use serde_json::value::RawValue;
use std::borrow::Cow;
use std::fmt;
use sxf::{ElementKind, Number};

/// An element of a point as it stands in a line.
#[derive(Clone, Copy)]
pub enum Element {
    /// A number: the shortest decimal that reads as this double.
    Number(f64),
    /// A floating number of this kind that decimals do not carry safely: its bits, as a string of `0x` and two hexadecimal digits a byte, the
    /// highest first.
    Bits(ElementKind, u64),
}

impl Element {
    /// The element of stored bits. What they stand for is the library's answer.
    pub fn of(kind: ElementKind, bits: u64) -> Element {
        let number = match kind.number(bits) {
            Some(Number::Single(single)) => Some(double_of(single)),
            Some(number) => number.value(),
            None => None,
        };
        number.filter(|&number| is_safe(number)).map_or(Element::Bits(kind, bits), Element::Number)
    }

    /// The bits that are stored for it; none where it is no element of this kind. Nothing is rounded.
    pub fn bits(self, kind: ElementKind) -> Option<u64> {
        let number = match self {
            Element::Bits(own, bits) => return (own == kind).then_some(bits),
            Element::Number(number) => number,
        };
        kind.bits(match kind {
            ElementKind::Short | ElementKind::Long => Number::Whole(whole_of(number)?),
            ElementKind::Single => Number::Single(single_of(number)?),
            ElementKind::Double => Number::Double(number),
        })
    }
}

/// Whether tools keep this double. JSON has no NaN and no infinity, and negative zero is 0 to a tool that takes `-0` for an integer.
fn is_safe(number: f64) -> bool {
    number.is_finite() && !is_negative_zero(number)
}

fn is_negative_zero(number: f64) -> bool {
    number == 0.0 && number.is_sign_negative()
}

/// The integer below 2^53 that a double is; none where it has a fraction or is negative zero. All integers of a sheet are below, and so far each
/// is a double of its own.
fn whole_of(number: f64) -> Option<i64> {
    let whole = number as i64;
    (whole as f64 == number && whole.unsigned_abs() < 1 << 53 && !is_negative_zero(number)).then_some(whole)
}

/// The double of the shortest decimal that gives this single again, also where it is read as a double first and only then rounded to a single,
/// as it is when a tool has kept it. The shortest decimal of a single does, but for one: 7.038531e-26 reads as a double halfway between two
/// singles, and is rounded to the other one. So that one, and its negative, have a digit more.
fn double_of(single: f32) -> f64 {
    let again = |decimal: String| decimal.parse().ok().filter(|&double: &f64| double as f32 == single);
    let longer = || (0..9).find_map(|digits| again(format!("{single:.digits$e}")));
    again(format!("{single:e}")).or_else(longer).unwrap_or(single.into())
}

/// The single that a double is, or whose decimal it is. Any other double would have to be rounded.
fn single_of(double: f64) -> Option<f32> {
    let single = double as f32;
    (f64::from(single) == double || double_of(single) == double).then_some(single)
}

impl fmt::Display for Element {
    fn fmt(&self, f: &mut fmt::Formatter<'_>) -> fmt::Result {
        match *self {
            Element::Number(number) => match whole_of(number) {
                Some(whole) => whole.fmt(f),
                None => write!(f, "{number:?}"),
            },
            Element::Bits(kind, bits) => write!(f, "0x{bits:0digits$x}", digits = 2 * kind.width()),
        }
    }
}

impl Serialize for Element {
    fn serialize<S: Serializer>(&self, serializer: S) -> Result<S::Ok, S::Error> {
        match *self {
            Element::Number(number) => match whole_of(number) {
                Some(whole) => serializer.serialize_i64(whole),
                None => serializer.serialize_f64(number),
            },
            Element::Bits(..) => serializer.collect_str(self),
        }
    }
}

impl<'de> Deserialize<'de> for Element {
    fn deserialize<D: Deserializer<'de>>(deserializer: D) -> Result<Self, D::Error> {
        let text = text_of(deserializer)?;
        let wanted =
            "where a number that a double holds should be, or a string of 0x and the 8 or 16 hexadecimal digits of one's bits";
        number_in(text)
            .map(Element::Number)
            .or_else(|| bits_in(text))
            .ok_or_else(|| D::Error::custom(format!("{}, {wanted}", told(text))))
    }
}

/// Reads an integer that is not negative: a count, a code or another number of the record table.
pub fn whole<'de, D: Deserializer<'de>, N: TryFrom<u64>>(deserializer: D) -> Result<N, D::Error> {
    let text = text_of(deserializer)?;
    let whole = text.parse().ok().or_else(|| u64::try_from(whole_of(number_in(text)?)?).ok());
    let fits = whole.and_then(|whole| N::try_from(whole).ok());
    let most = 8 * size_of::<N>();
    fits.ok_or_else(|| D::Error::custom(format!("{}, where an integer of at most {most} bits, from 0 on, should be", told(text))))
}

/// A value that is not taken, or what it is where it may be long.
fn told(text: &str) -> String {
    match text.chars().next() {
        Some('[') => "a list".to_string(),
        Some('{') => "an object".to_string(),
        _ => text.chars().take(60).collect(),
    }
}

/// A value as it stands in the line. Rust's own reading of decimals gives the nearest double for digits of any length.
fn text_of<'de, D: Deserializer<'de>>(deserializer: D) -> Result<&'de str, D::Error> {
    <&RawValue>::deserialize(deserializer).map(RawValue::get)
}

/// The double nearest to a decimal; none where that is infinite, or the value is no number.
fn number_in(text: &str) -> Option<f64> {
    text.parse().ok().filter(|number: &f64| number.is_finite())
}

fn bits_in(text: &str) -> Option<Element> {
    let string: Cow<'_, str> = serde_json::from_str(text).ok()?;
    let digits = string.strip_prefix("0x")?;
    let kind = [ElementKind::Single, ElementKind::Double].into_iter().find(|kind| digits.len() == 2 * kind.width())?;
    // A sign would be taken with the digits.
    let all_digits = digits.bytes().all(|digit| digit.is_ascii_hexdigit());
    all_digits.then(|| u64::from_str_radix(digits, 16).ok()).flatten().map(|bits| Element::Bits(kind, bits))
}

#[cfg(test)]
mod tests {
    use super::*;
    use held_against_second::coordinates::EDGES;
    use held_against_second::numbers::Numbers;

    /// As it stands in a line, and the bits that are read from there.
    fn printed(kind: ElementKind, bits: u64) -> (String, Option<u64>) {
        let text = serde_json::to_string(&Element::of(kind, bits)).expect("it is printed");
        let element: Element = serde_json::from_str(&text).expect("it is read");
        (text, element.bits(kind))
    }

    /// The edges of this width, and so many bits more.
    fn drawn(width: u32, more: usize) -> impl Iterator<Item = u64> {
        let mut numbers = Numbers::of_case(1, width.into(), 0);
        let edges = EDGES.map(|bits| bits & u64::MAX >> (64 - 8 * width));
        edges.into_iter().chain(std::iter::repeat_with(move || numbers.any() >> (64 - 8 * width)).take(more))
    }

    #[test]
    fn bits_come_back_from_a_line() {
        for kind in [ElementKind::Short, ElementKind::Long, ElementKind::Single, ElementKind::Double] {
            for bits in drawn(kind.width() as u32, 100_000) {
                let (text, back) = printed(kind, bits);
                assert_eq!(back, Some(bits), "{kind}: {text}");
            }
        }
    }

    /// The decimal nearest to a number that has a digit less than its line gives other bits.
    #[test]
    fn no_shorter_decimal_gives_the_bits() {
        fn shorter(number: impl fmt::LowerExp, text: &str) -> Option<f64> {
            let digits = text.split('e').next()?.trim_start_matches(['-', '0', '.']).replace('.', "");
            let fewer = digits.trim_end_matches('0').len().checked_sub(2)?;
            format!("{number:.fewer$e}").parse().ok()
        }
        let mut tried = 0;
        for bits in drawn(8, 100_000).filter(|&bits| is_safe(f64::from_bits(bits))) {
            let (text, double) = (printed(ElementKind::Double, bits).0, f64::from_bits(bits));
            assert_ne!(shorter(double, &text), Some(double), "{text}");
            tried += 1;
        }
        for bits in drawn(4, 100_000) {
            let single = f32::from_bits(bits as u32);
            if is_safe(single.into()) {
                let text = printed(ElementKind::Single, bits).0;
                assert_ne!(shorter(single, &text).map(|double| double as f32), Some(single), "{text}");
                tried += 1;
            }
        }
        assert!(tried > 190_000);
    }

    /// All singles that are not negative; the others differ in their sign alone.
    #[test]
    #[ignore = "it takes some twenty minutes"]
    fn every_single_comes_back_from_a_line() {
        for bits in 0..=0x7FFF_FFFF {
            assert_eq!(printed(ElementKind::Single, bits).1, Some(bits));
        }
    }
}
