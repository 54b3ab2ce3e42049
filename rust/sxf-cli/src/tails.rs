//! What is told of a dirty tail: which text field has old letters after its first zero, and which letters.
use crate::quoted::quoted;
use sxf::{Head, Text};

/// Bytes of a text field, or of its tail, in quotation marks.
pub fn text(bytes: &[u8]) -> String {
    quoted(&Text { coding: Head::CODING, bytes })
}

/// What a sheet has.
pub fn found(field: &str, letters: &[u8]) -> String {
    format!("{field} has old letters after its first zero: {}", text(letters))
}

/// What a sheet that was written has no longer.
pub fn cleared(field: &str, letters: &[u8]) -> String {
    format!("{field} had old letters after its first zero, which are cleared: {}", text(letters))
}
