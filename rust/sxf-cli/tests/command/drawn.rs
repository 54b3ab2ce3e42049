//! Drawn sheets with every kind of element: of each shape of points one record that has all edges, and as many elements of any bits. Some records
//! have the mark.
use held_against_second::coordinates::{shapes, EDGES};
use held_against_second::heads::head;
use held_against_second::numbers::Numbers;
use held_against_second::sheets::written;
use held_against_second::tables::{item, marked_record, record, reference, widths};
use second::Table;
use sxf::Reference;

const YEAR: u32 = 2017;

const SHAPE: u32 = Reference::ELEMENT_SIZE | Reference::FLOATING | Reference::THREE_DIMENSIONS;

/// The sheet of a number.
pub fn sheet(number: u64) -> Vec<u8> {
    let mut numbers = Numbers::of_case(1, 0, number);
    let head = head(&mut numbers, YEAR);
    let mut table = Table::default();
    for shape in shapes() {
        let items = numbers.below(3);
        let reference = reference(&mut numbers, YEAR, items != 0) & !u64::from(SHAPE) | u64::from(shape);
        let word = numbers.of_bits(32);
        let before = table.elements.len();
        let points = [EDGES.len() as u64, numbers.below(9)];
        if numbers.chance(1, 4) {
            marked_record(&mut table, &mut numbers, reference, &points);
        } else {
            record(&mut table, &mut numbers, reference, word, &points);
        }
        put_edges(&mut table.elements[before..], reference, &mut numbers);
        (0..items).for_each(|_| item(&mut table, &mut numbers, YEAR));
    }
    written(YEAR, head, table).sheet
}

/// Puts each edge once in the plane, beside any bits, and once in the heights.
fn put_edges(elements: &mut [u64], reference: u64, numbers: &mut Numbers) {
    let widths = widths(reference);
    let of_a_point = widths.elements() as usize;
    for (point, &edge) in elements.chunks_mut(of_a_point).zip(&EDGES) {
        let planar = u64::MAX >> (64 - 8 * widths.planar);
        let (x, y) = if numbers.chance(1, 2) { (edge, numbers.any()) } else { (numbers.any(), edge) };
        (point[0], point[1]) = (x & planar, y & planar);
        if let Some(height) = point.get_mut(2) {
            *height = edge & (u64::MAX >> (64 - 8 * widths.height));
        }
    }
}
