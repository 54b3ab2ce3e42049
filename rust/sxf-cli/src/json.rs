//! The JSON lines of `sxf table` and `sxf write`: first the head, then a line for each record.
//!
//! Texts are characters or bytes (text.rs), and bytes are strings of hexadecimal digits. Elements are numbers (element.rs), and the other numbers
//! are those of the record table, all of them integers below 2^53. Points, parts, items, text lengths and value lengths are counted from what is
//! there.
use crate::element::whole;
use crate::hex::Hex;
use crate::object::objects;
use serde::de::Deserializer;
use serde::{Deserialize, Serialize};
use std::borrow::Cow;

/// What `sxf` says in a head's line: the edition of the sheet's format.
pub const EDITION: &str = "4.0";

/// What `format` says in a head's line: the format of these lines. The first had no such number, and had elements as stored bits; the second had
/// all texts as bytes.
pub const FORMAT: u64 = 3;

#[derive(Serialize, Deserialize)]
#[serde(deny_unknown_fields, expecting = "the head, an object")]
pub struct HeadLine<'a> {
    pub sxf: Cow<'a, str>,
    #[serde(deserialize_with = "whole")]
    pub format: u64,
    #[serde(default, deserialize_with = "some", skip_serializing_if = "Option::is_none")]
    pub date: Option<String>,
    #[serde(default, deserialize_with = "some", skip_serializing_if = "Option::is_none")]
    pub date_bytes: Option<Hex<'a>>,
    /// What stands after the text's first zero, where that is not clean, as for the other texts. It is told, and not written.
    #[serde(default, deserialize_with = "some", skip_serializing_if = "Option::is_none")]
    pub date_tail: Option<Hex<'a>>,
    #[serde(default, deserialize_with = "some", skip_serializing_if = "Option::is_none")]
    pub designation: Option<String>,
    #[serde(default, deserialize_with = "some", skip_serializing_if = "Option::is_none")]
    pub designation_bytes: Option<Hex<'a>>,
    #[serde(default, deserialize_with = "some", skip_serializing_if = "Option::is_none")]
    pub designation_tail: Option<Hex<'a>>,
    #[serde(deserialize_with = "whole")]
    pub scale: u32,
    #[serde(default, deserialize_with = "some", skip_serializing_if = "Option::is_none")]
    pub title: Option<String>,
    #[serde(default, deserialize_with = "some", skip_serializing_if = "Option::is_none")]
    pub title_bytes: Option<Hex<'a>>,
    #[serde(default, deserialize_with = "some", skip_serializing_if = "Option::is_none")]
    pub title_tail: Option<Hex<'a>>,
    /// The 304 bytes of the passport from +96 on.
    pub rest: Hex<'a>,
    /// The descriptor's designation.
    #[serde(default, deserialize_with = "some", skip_serializing_if = "Option::is_none")]
    pub designation2: Option<String>,
    #[serde(default, deserialize_with = "some", skip_serializing_if = "Option::is_none")]
    pub designation2_bytes: Option<Hex<'a>>,
    #[serde(default, deserialize_with = "some", skip_serializing_if = "Option::is_none")]
    pub designation2_tail: Option<Hex<'a>>,
    /// The four bytes at 444.
    #[serde(rename = "flags")]
    pub carried: Hex<'a>,
    /// How many records follow, so that a table that was cut is not written. It may be left out.
    #[serde(default, deserialize_with = "some_whole", skip_serializing_if = "Option::is_none")]
    pub records: Option<u64>,
}

/// What a field has that may be left out; null is nothing that it may have.
fn some<'de, D: Deserializer<'de>, T: Deserialize<'de>>(deserializer: D) -> Result<Option<T>, D::Error> {
    T::deserialize(deserializer).map(Some)
}

fn some_whole<'de, D: Deserializer<'de>>(deserializer: D) -> Result<Option<u64>, D::Error> {
    whole(deserializer).map(Some)
}

/// A record. Its points are [those of a sheet](crate::points::Stored) where it is printed, and [those of a line](crate::points::Points) where it is read.
#[derive(Serialize, Deserialize)]
#[serde(deny_unknown_fields, expecting = "a record, an object")]
pub struct RecordLine<'a, P> {
    #[serde(deserialize_with = "whole")]
    pub code: u64,
    #[serde(rename = "number_in_group", deserialize_with = "whole")]
    pub in_group: u64,
    #[serde(rename = "group_number", deserialize_with = "whole")]
    pub group: u64,
    /// Bytes 20 to 22 as one number, byte 20 lowest.
    #[serde(deserialize_with = "whole")]
    pub reference: u64,
    #[serde(deserialize_with = "whole")]
    pub generalisation: u64,
    #[serde(deserialize_with = "whole")]
    pub word: u64,
    /// 1 for a record with the mark, whose word is its first part's points; left out for one without. Where a line has none, the points say
    /// whether the record needs it, so that a line from before there was a `mark` means what it meant.
    #[serde(default, deserialize_with = "some_whole", skip_serializing_if = "Option::is_none")]
    pub mark: Option<u64>,
    #[serde(deserialize_with = "objects", bound(deserialize = "P: Deserialize<'de>"))]
    pub parts: Vec<PartLine<'a, P>>,
    #[serde(deserialize_with = "objects")]
    pub items: Vec<ItemLine<'a>>,
}

#[derive(Serialize, Deserialize)]
#[serde(deny_unknown_fields, expecting = "a part, an object")]
pub struct PartLine<'a, P> {
    pub points: P,
    /// Without its closing zero; left out where it is empty, as it is without the text bit.
    #[serde(default, deserialize_with = "some", skip_serializing_if = "Option::is_none")]
    pub label: Option<String>,
    #[serde(default, deserialize_with = "some", skip_serializing_if = "Option::is_none")]
    pub label_bytes: Option<Hex<'a>>,
}

#[derive(Serialize, Deserialize)]
#[serde(deny_unknown_fields, expecting = "an item, an object")]
pub struct ItemLine<'a> {
    #[serde(deserialize_with = "whole")]
    pub code: u64,
    #[serde(rename = "type", deserialize_with = "whole")]
    pub kind: u64,
    /// The characters of a text, without closing zeros, which give scale byte and value.
    #[serde(default, deserialize_with = "some", skip_serializing_if = "Option::is_none")]
    pub text: Option<String>,
    /// The scale byte, where there is no text.
    #[serde(default, deserialize_with = "some_whole", skip_serializing_if = "Option::is_none")]
    pub scale: Option<u64>,
    /// The value with its closing zeros, where there is no text.
    #[serde(default, deserialize_with = "some", skip_serializing_if = "Option::is_none")]
    pub value: Option<Hex<'a>>,
}
