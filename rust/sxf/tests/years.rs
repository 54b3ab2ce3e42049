//! Each feature of the document's list, alone in a sheet: where it is met, its year and its name.
use sxf::fields::{descriptor, header, item, passport, START};
use sxf::row::{self, ITEMS, MARK, REFERENCE, WORD};
use sxf::years::{self, Feature};
use sxf::{write, Head, Reference, Setting, Table};

fn features(sheet: &[u8]) -> Vec<(usize, u32, &'static str)> {
    let years = years::of(sheet);
    let (first, _) = years.outcome.expect("accepted at some setting");
    let told = |feature: &Feature| (feature.place, feature.year, feature.name(sheet));
    assert_eq!(Some(first.year()), years.features.last().map(|feature| feature.year));
    years.features.iter().map(told).collect()
}

#[test]
fn features_of_the_head() {
    for (field, byte, year, name) in [
        (passport::ACCURACY, 3, 2006, "accuracy not 0"),
        (passport::SORTING, 1, 2008, "special sorting"),
        (passport::EPSG, 1, 2017, "EPSG not 0"),
        (passport::NORTH, 1, 2004, "north offset"),
        (passport::EAST, 1, 2004, "east offset"),
    ] {
        let mut rest = *Head::PLAIN.rest;
        rest[passport::in_rest(field).place] = byte;
        let sheet = write(&Head { rest: &rest, ..Head::PLAIN }, Table::default().lend(), Setting::Y2017).expect(name);
        assert_eq!(features(&sheet), [(field.place, year, name)]);
    }
    for (byte, name) in [(1, "automatic GUID"), (2, "edit date"), (3, "automatic GUID")] {
        let head = Head { carried: &[3, 0, 0, byte], ..Head::PLAIN };
        let sheet = write(&head, Table::default().lend(), Setting::Y2017).expect(name);
        assert_eq!(features(&sheet), [(descriptor::KEEPING.place, 2017, name)]);
    }
}

/// The place of the second record, after one of a header and a point of 4 bytes.
const SECOND: usize = START + header::SIZE + 4;

/// The index of the second record's numbers.
const SECOND_ROW: usize = row::row_size(1, 0);

/// A record of one point without a bit set, and after it the same with these reference bytes.
fn second(reference: u64) -> Table {
    let record = row::Record { generalisation: 255, parts: 1, ..row::Record::default() }.numbers();
    let part = row::Part { points: 1, text_length: 0 }.numbers();
    let mut numbers = [&record[..], &part, &record, &part].concat();
    numbers[REFERENCE] = 2;
    numbers[SECOND_ROW + REFERENCE] = reference;
    Table { numbers, elements: vec![3, 4, 5, 6], bytes: Vec::new() }
}

#[test]
fn features_of_the_reference_bytes() {
    for (bit, byte, year, name) in [
        (Reference::MULTIPOLYGON, header::BYTE20, 2016, "multipolygon"),
        (Reference::COMPRESSED_GRAPHICS, header::BYTE21, 2015, "compressed graphics"),
        (Reference::UNICODE, header::BYTE21, 2008, "Unicode"),
        (Reference::ABOVE_ALL, header::BYTE21, 2014, "above all"),
        (Reference::BELOW_ALL, header::BYTE21, 2014, "below all"),
        (Reference::VERTICAL_ALIGNMENT, header::BYTE21, 2017, "vertical alignment"),
        (1 << 22, header::BYTE22, 2004, "spline bits"),
        (1 << 23, header::BYTE22, 2004, "spline bits"),
    ] {
        let sheet = write(&Head::PLAIN, second(bit.into()).lend(), Setting::Y2017).expect(name);
        assert_eq!(features(&sheet), [(byte.at(SECOND).place, year, name)], "bit {bit:#x}");
    }
}

#[test]
fn the_mark_and_type_128() {
    let mut marked = second(0);
    marked.numbers[SECOND_ROW + WORD] = 1;
    marked.numbers[SECOND_ROW + MARK] = 1;
    let sheet = write(&Head::PLAIN, marked.lend(), Setting::Y2017).expect("the mark");
    assert_eq!(features(&sheet), [(header::POINTS.at(SECOND).place, 2004, "the mark 65535")]);

    let mut long = second(Reference::SEMANTICS.into());
    long.numbers[SECOND_ROW + ITEMS] = 1;
    long.numbers.extend(row::Item { code: 1, kind: 128, scale: 0xFF, length: 2 }.numbers());
    long.bytes.extend([0, 0]);
    let sheet = write(&Head::PLAIN, long.lend(), Setting::Y2017).expect("an item");
    let after_its_point = SECOND + header::SIZE + 4;
    assert_eq!(features(&sheet), [(item::TYPE.at(after_its_point).place, 2012, "item of type 128")]);
}

/// A binding vector is dated, and then not carried.
#[test]
fn a_binding_vector_is_named() {
    let mut sheet = write(&Head::PLAIN, second(0).lend(), Setting::Y1999).expect("a sheet");
    sheet[header::BYTE21.at(SECOND).place] = 8;
    sheet[passport::SUM.place] += 8;
    let years = years::of(&sheet);
    let told: Vec<_> = years.features.iter().map(|f| (f.place, f.year, f.name(&sheet))).collect();
    assert_eq!(told, [(509, 2008, "binding vector")]);
    assert_eq!(years.outcome.map_err(|refusal| (refusal.name(), refusal.place)), Err(("NOT CARRIED", 509)));
}
