//! Little-endian numbers and runs of bytes at places.

/// `N` bytes at a place that is known to have them.
pub(crate) fn bytes_at<const N: usize>(bytes: &[u8], at: usize) -> [u8; N] {
    let mut taken = [0; N];
    taken.copy_from_slice(&bytes[at..at + N]);
    taken
}

/// The four-byte number at a place that is known to have it.
pub(crate) fn u32_at(bytes: &[u8], at: usize) -> u32 {
    u32::from_le_bytes(bytes_at(bytes, at))
}

/// The two-byte number at a place that is known to have it.
pub(crate) fn u16_at(bytes: &[u8], at: usize) -> u16 {
    u16::from_le_bytes(bytes_at(bytes, at))
}

/// Stores bytes at a place that has room for them.
pub(crate) fn put(sheet: &mut [u8], at: usize, bytes: &[u8]) {
    sheet[at..at + bytes.len()].copy_from_slice(bytes);
}

/// Stores a four-byte number at a place that has room for it.
pub(crate) fn put_u32(sheet: &mut [u8], at: usize, number: u32) {
    put(sheet, at, &number.to_le_bytes());
}

/// The low bytes of a number, the lowest first.
pub(crate) fn low_bytes<const WIDTH: usize>(number: u64) -> [u8; WIDTH] {
    bytes_at(&number.to_le_bytes(), 0)
}
