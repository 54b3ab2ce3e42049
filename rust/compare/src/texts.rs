//! Texts as the wrapper turns them.
use sxf::{Coding, Text};

/// The coding of labels of that number, at +97 of the sheet.
pub fn labels(coding: u8) -> Coding {
    Coding::of_labels(coding).expect("a coding of labels")
}

/// The characters of a text up to its first zero: what stands behind it is for editors (000, appendix 6).
pub fn shown(Text { coding, bytes }: Text) -> String {
    let zero = bytes.chunks_exact(coding.width()).position(|unit| unit.iter().all(|&byte| byte == 0));
    let bytes = zero.map_or(bytes, |units| &bytes[..units * coding.width()]);
    coding.string(bytes).unwrap_or_else(|none| none.to_string())
}

/// The bytes of a text in a coding.
pub fn coded(coding: Coding, text: &str) -> Vec<u8> {
    coding.bytes(text).expect("characters of the coding")
}
