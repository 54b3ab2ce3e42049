//! The generalisation byte: the scales between which a record is shown.
use crate::refusal::low32;
use std::fmt;
use sxf_sys::lent;

/// What a generalisation byte says.
#[derive(Clone, Copy, Debug, PartialEq, Eq, Hash)]
pub enum Visibility {
    /// 0xFF: no bounds.
    Unset,
    /// The denominators of the lower and the upper bound.
    Bounds {
        /// The lower bound.
        lower: u32,
        /// The upper bound.
        upper: u32,
    },
}

impl Visibility {
    /// From the passport's byte at +96, whose bit 7 picks the table, and the record's generalisation byte.
    ///
    /// ```
    /// use sxf::Visibility;
    /// assert_eq!(Visibility::of(3, 0x24), Visibility::Bounds { lower: 10_000, upper: 10_000_000 });
    /// assert_eq!(Visibility::of(3, 0xFF), Visibility::Unset);
    /// ```
    pub fn of(flags: u8, generalisation: u8) -> Visibility {
        let answer = lent::visibility_of(flags, generalisation);
        match answer.set {
            0 => Visibility::Unset,
            _ => Visibility::Bounds { lower: low32(answer.lower), upper: low32(answer.upper) },
        }
    }
}

impl fmt::Display for Visibility {
    fn fmt(&self, f: &mut fmt::Formatter<'_>) -> fmt::Result {
        match self {
            Visibility::Unset => f.write_str("unset"),
            Visibility::Bounds { lower, upper } => write!(f, "1:{lower} to 1:{upper}"),
        }
    }
}
