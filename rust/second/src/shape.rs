//! How points are stored: the widths of their elements ("Record").

use crate::bytes::low_bytes;

/// The widths of a point's elements, and of the point, in bytes.
#[derive(Clone, Copy)]
pub(crate) struct Shape {
    /// Of each of the two planar elements: 2, 4 or 8.
    planar: u8,
    /// Of the height: 4 or 8, and 0 in two dimensions.
    height: u8,
    /// Of the point.
    point: u8,
}

impl Shape {
    /// "So a point has 4, 8, 8 or 16 bytes in two dimensions and 8, 12, 12 or
    /// 24 in three." Listed here, while the archive works them out (02, request
    /// 4), so that a mistake in its rule shows.
    pub(crate) fn new(large: bool, floating: bool, three_dimensions: bool) -> Shape {
        let (planar, height, point) = match (three_dimensions, large, floating) {
            (false, false, false) => (2, 0, 4),
            (false, false, true) => (4, 0, 8),
            (false, true, false) => (4, 0, 8),
            (false, true, true) => (8, 0, 16),
            (true, false, false) => (2, 4, 8),
            (true, false, true) => (4, 4, 12),
            (true, true, false) => (4, 4, 12),
            (true, true, true) => (8, 8, 24),
        };
        Shape { planar, height, point }
    }

    /// Bytes of X, and of Y.
    pub(crate) fn planar_width(self) -> usize {
        usize::from(self.planar)
    }

    /// Bytes of a height, and 0 in two dimensions.
    pub(crate) fn height_width(self) -> usize {
        usize::from(self.height)
    }

    /// Bytes of one point.
    pub(crate) fn point_bytes(self) -> u64 {
        u64::from(self.point)
    }

    /// Elements of one point.
    pub(crate) fn point_elements(self) -> u64 {
        if self.height == 0 {
            2
        } else {
            3
        }
    }

    /// Adds the elements of whole points to the pool, as stored bits.
    ///
    /// Only short planar elements under a height are of two widths; in every
    /// other shape the elements are all alike.
    pub(crate) fn unfold(self, points: &[u8], pool: &mut Vec<u64>) {
        match (self.planar, self.height) {
            (2, 0) => pool.extend(points.chunks_exact(2).map(two)),
            (2, _) => {
                pool.extend(points.chunks_exact(8).flat_map(|point| [two(&point[..2]), two(&point[2..4]), four(&point[4..])]))
            }
            (4, _) => pool.extend(points.chunks_exact(4).map(four)),
            _ => pool.extend(points.chunks_exact(8).map(eight)),
        }
    }

    /// Whether each element of whole points fits its width.
    pub(crate) fn fits(self, elements: &[u64]) -> bool {
        match (self.planar, self.height) {
            (2, 0) => all_bits(elements) >> 16 == 0,
            (2, _) => {
                let (mut planar, mut height) = (0, 0);
                for point in elements.chunks_exact(3) {
                    planar |= point[0] | point[1];
                    height |= point[2];
                }
                planar >> 16 == 0 && height >> 32 == 0
            }
            (4, _) => all_bits(elements) >> 32 == 0,
            _ => true,
        }
    }

    /// Adds whole points, whose elements fit, to the sheet.
    pub(crate) fn fold(self, elements: &[u64], sheet: &mut Vec<u8>) {
        match (self.planar, self.height) {
            (2, 0) => fold_alike::<2>(elements, sheet),
            (2, _) => {
                for point in elements.chunks_exact(3) {
                    sheet.extend_from_slice(&low_bytes::<2>(point[0]));
                    sheet.extend_from_slice(&low_bytes::<2>(point[1]));
                    sheet.extend_from_slice(&low_bytes::<4>(point[2]));
                }
            }
            (4, _) => fold_alike::<4>(elements, sheet),
            _ => fold_alike::<8>(elements, sheet),
        }
    }
}

fn fold_alike<const WIDTH: usize>(elements: &[u64], sheet: &mut Vec<u8>) {
    let start = sheet.len();
    sheet.resize(start + WIDTH * elements.len(), 0);
    let places = sheet[start..].chunks_exact_mut(WIDTH);
    for (place, &element) in places.zip(elements) {
        place.copy_from_slice(&low_bytes::<WIDTH>(element));
    }
}

fn all_bits(elements: &[u64]) -> u64 {
    elements.iter().fold(0, |bits, element| bits | element)
}

fn two(element: &[u8]) -> u64 {
    u64::from(u16::from_le_bytes([element[0], element[1]]))
}

fn four(element: &[u8]) -> u64 {
    u64::from(u32::from_le_bytes([element[0], element[1], element[2], element[3]]))
}

fn eight(element: &[u8]) -> u64 {
    four(&element[..4]) | four(&element[4..8]) << 32
}
