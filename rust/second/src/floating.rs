//! Floating numbers by their bits, as IEEE 754 defines them ("в соответствии со
//! стандартом IEEE", document 000, 2.1.4). No conversion of the machine takes
//! part.

/// The value of a number of four bytes, which a double holds exactly; none for
/// a NaN.
pub(crate) fn single(bits: u32) -> Option<f64> {
    let negative = bits >> 31 == 1;
    let exponent = (bits >> 23 & 0xFF) as i32;
    let fraction = bits & 0x007F_FFFF;
    let size = match (exponent, fraction) {
        (0xFF, 0) => f64::INFINITY,
        (0xFF, _) => return None,
        // Below the least normal number there is no hidden bit.
        (0, _) => f64::from(fraction) * two_to(-149),
        _ => f64::from(fraction + 0x0080_0000) * two_to(exponent - 150),
    };
    Some(if negative { -size } else { size })
}

/// A power of two between -1022 and 1023.
fn two_to(power: i32) -> f64 {
    f64::from_bits(u64::from((1023 + power) as u32) << 52)
}

/// The number of eight bytes; none for a NaN.
pub(crate) fn double(bits: u64) -> Option<f64> {
    let all_ones = bits >> 52 & 0x7FF == 0x7FF;
    let fraction = bits & 0x000F_FFFF_FFFF_FFFF;
    (!all_ones || fraction == 0).then_some(f64::from_bits(bits))
}
