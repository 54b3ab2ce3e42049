//! The archive's calls, each lent slices, and their answers, as `sxf-sys` has
//! them; and writing from the head and the table of `second`.

use sxf_sys::lent::{self, Contents};

pub use sxf_sys::lent::{
    check, coordinate_of, corners_of, first_with, frame_of, from_utf16, head_of, index_build, index_check, index_read,
    index_select, record_at, select, to_utf16, unfold, unfold_new, unit_of, value_of, visibility_of,
};
pub use sxf_sys::{Checked, Coordinate, Corners, Head, Hop, Index, Record, Unit, Value, Visibility, Written};

pub fn write(year: u32, head: &second::Head, table: &second::Table, out: &mut [u8]) -> Written {
    let from = Contents {
        date: &head.date,
        designation: &head.designation,
        scale: head.scale,
        title: &head.title,
        rest: &head.rest,
        designation2: &head.designation2,
        carried: &head.carried,
        table: &table.numbers,
        elements: &table.elements,
        bytes: &table.bytes,
    };
    lent::write(year, &from, out)
}
