//! Reading: the documents' cases, each refusal and its place, and their order.

use super::*;
use crate::{check, read, record_at, write, Record};

/// The refusal of a sheet, which reading and checking give alike.
fn refusal(sheet: &[u8], year: u32) -> Refusal {
    let refusal = read(sheet, year).expect_err("a refusal");
    assert_eq!(check(sheet, year), Err(refusal));
    refusal
}

/// The refusal of sheet P with bytes changed, at setting 2017.
fn refusal_p(changes: &[(usize, &[u8])]) -> Refusal {
    refusal(&changed(&sheet_p(), changes), 2017)
}

/// The refusal of sheet P with another record, at setting 2017. Behind P's own
/// record it is the same and stands as much further on.
fn refusal_record(record: Vec<u8>) -> Refusal {
    let alone = refusal(&sheet_with(std::slice::from_ref(&record)), 2017);
    let first = record_p();
    let place = alone.place + first.len() as u64;
    assert_eq!(refusal(&sheet_with(&[first, record]), 2017), Refusal { place, ..alone });
    alone
}

/// The refusal of sheet P with this semantics, at setting 2017.
fn refusal_item(semantics: &[u8]) -> Refusal {
    refusal(&sheet_with_item(semantics), 2017)
}

#[test]
fn sheet_e_is_read() {
    let sheet = sheet_e();
    let reading = read(&sheet, 1999).unwrap();
    assert_eq!(reading.sum, 795);
    assert_eq!(reading.records, 0);
    assert_eq!(reading.head, head_e());
    assert_eq!(reading.table, Table::default());

    let mut wrong_sum = sheet.clone();
    wrong_sum[12..16].copy_from_slice(&796u32.to_le_bytes());
    assert_eq!(refusal(&wrong_sum, 1999), refused(5, 12));
    assert_eq!(refusal(&sheet[..451], 1999), refused(2, 0));
    assert_eq!(refusal(&[], 1999), refused(2, 0));
}

#[test]
fn sheet_p_is_read() {
    let reading = read(&sheet_p(), 1999).unwrap();
    assert_eq!(reading.sum, 1865);
    assert_eq!(reading.records, 1);
    assert_eq!(reading.table, table_p());
}

#[test]
fn sheet_q_is_read() {
    let sheet = sheet_q();
    let reading = read(&sheet, 1999).unwrap();
    assert_eq!(sheet.len(), 494);
    assert_eq!(reading.sum, 2384);
    assert_eq!(reading.table, table_q());
}

#[test]
fn sizes_are_told() {
    let sizes = |sheet: &[u8]| check(sheet, 2017).unwrap();
    assert_eq!(sizes(&sheet_e()), Sizes { sum: 795, records: 0, numbers: 0, elements: 0, bytes: 0 });
    assert_eq!(sizes(&sheet_p()), Sizes { sum: 1865, records: 1, numbers: 11, elements: 2, bytes: 0 });
    assert_eq!(sizes(&sheet_q()), Sizes { sum: 2384, records: 1, numbers: 15, elements: 2, bytes: 2 });
    // A label of two parts in three dimensions with the texts "ab" and "c",
    // then P's record.
    let metric = [&[7; 8][..], b"\x02ab\0", &[0, 0, 2, 0], &[8; 16], b"\x01c\0"].concat();
    let label = record([3, 0, 0x0A], 0, 1, 1, &metric, &[]);
    let two = sheet_with(&[label, record_p()]);
    let sum = u64::from(u32::from_le_bytes([two[12], two[13], two[14], two[15]]));
    assert_eq!(sizes(&two), Sizes { sum, records: 2, numbers: 9 + 2 * 2 + 11, elements: 3 + 6 + 2, bytes: 3 });
    for sheet in [sheet_e(), sheet_p(), sheet_q(), two] {
        assert_eq!(sizes(&sheet), sizes_of(&read(&sheet, 2017).unwrap()));
    }
}

#[test]
fn multipolygon_has_its_year() {
    let sheet = changed(&sheet_p(), &[(472, &[18])]);
    assert_eq!(refusal(&sheet, 2015), too_new(472, 2016));
    assert_eq!(read(&sheet, 2016).unwrap().sum, 1881);
}

#[test]
fn only_nine_settings() {
    for year in (0..3000).chain([u32::MAX]) {
        let one_of_nine = matches!(year, 1999 | 2004 | 2006 | 2008 | 2012 | 2014 | 2015 | 2016 | 2017);
        assert_eq!(read(&sheet_e(), year).is_ok(), one_of_nine);
        if !one_of_nine {
            assert_eq!(refusal(&[], year), refused(16, 0));
            assert_eq!(record_at(&[], year, 0), Err(refused(16, 0)));
        }
    }
}

#[test]
fn fixed_fields() {
    for (place, number) in [(0, 3), (4, 4), (8, 4), (400, 3), (404, 4), (452, 3)] {
        for byte in place..place + 4 {
            let mut sheet = sheet_p();
            sheet[byte] ^= 0x20;
            assert_eq!(refusal(&summed(sheet), 2017), refused(number, place as u64));
        }
    }
    for byte in 12..16 {
        let mut sheet = sheet_p();
        sheet[byte] ^= 0x20;
        assert_eq!(refusal(&sheet, 2017), refused(5, 12));
    }
    for byte in 448..452 {
        assert_eq!(refusal_p(&[(byte, &[1])]), refused(7, 448));
    }
}

#[test]
fn text_fields() {
    for (place, length) in [(16, 12), (28, 32), (64, 32), (408, 32)] {
        let full = vec![b'x'; length];
        assert_eq!(refusal_p(&[(place, &full)]), refused(6, place as u64));
        let mut longest = full;
        longest[length - 1] = 0;
        assert!(read(&changed(&sheet_p(), &[(place, &longest)]), 1999).is_ok());
    }
    let texts: [(usize, &[u8]); 5] =
        [(16, b"20180216"), (28, b"N-37"), (60, &[0x50, 0xC3, 0, 0]), (64, b"Moskva"), (408, b"other")];
    let head = read(&changed(&sheet_e(), &texts), 1999).unwrap().head;
    assert_eq!(head.date, b"20180216");
    assert_eq!(head.designation, b"N-37");
    assert_eq!(head.scale, 50_000);
    assert_eq!(head.title, b"Moskva");
    assert_eq!(head.designation2, b"other");
}

/// Every value of each flag byte, at the last setting.
#[test]
fn flag_bytes() {
    for byte in 0..=255u8 {
        let real = byte >> 3 & 3;
        let state = byte & 3 == 3 && real != 1 && real != 2 && byte >> 5 & 3 == 0;
        let allowed = [
            (96, state && byte & 4 == 0),
            (97, byte <= 2),
            (98, byte <= 3),
            (99, byte <= 1),
            (444, state),
            (445, byte <= 2),
            (446, byte <= 5),
            (447, byte <= 3),
        ];
        for (place, allowed) in allowed {
            let reading = read(&changed(&sheet_e(), &[(place, &[byte])]), 2017);
            match reading {
                Ok(reading) => assert!(allowed, "{place} {byte} {reading:?}"),
                Err(refusal) => {
                    assert!(!allowed);
                    assert_eq!(refusal, refused(7, place as u64));
                }
            }
        }
    }
}

/// Each feature is refused just before its year and taken from it on.
#[test]
fn years_of_features() {
    let years = [1999, 2004, 2006, 2008, 2012, 2014, 2015, 2016, 2017];
    let item_128 = [1, 0, 128, 0xFF, 2, 0, 0, 0, 0, 0];
    let marked = record([2, 0, 0], 65535, 0, 65535, &[7; 4 * 65535], &[]);
    let marked_one = record([2, 0, 0], 1, 0, 65535, &POINT_3_4, &[]);
    let p = sheet_p();
    let cases: Vec<(Vec<u8>, u64, u64)> = vec![
        (changed(&p, &[(98, &[3])]), 98, 2006),
        (changed(&p, &[(99, &[1])]), 99, 2008),
        (changed(&p, &[(103, &[1])]), 100, 2017),
        (changed(&p, &[(391, &[0x80])]), 384, 2004),
        (changed(&p, &[(392, &[1])]), 392, 2004),
        (changed(&p, &[(447, &[1])]), 447, 2017),
        (changed(&p, &[(447, &[2])]), 447, 2017),
        (changed(&p, &[(472, &[18])]), 472, 2016),
        (changed(&p, &[(473, &[0x01])]), 473, 2015),
        (changed(&p, &[(473, &[0x10])]), 473, 2008),
        (changed(&p, &[(473, &[0x20])]), 473, 2014),
        (changed(&p, &[(473, &[0x40])]), 473, 2014),
        (changed(&p, &[(473, &[0x80])]), 473, 2017),
        (changed(&p, &[(474, &[0x40])]), 474, 2004),
        (changed(&p, &[(474, &[0x80])]), 474, 2004),
        (changed(&p, &[(474, &[0xC0])]), 474, 2004),
        (sheet_with_item(&item_128), 490, 2012),
        (sheet_with(&[marked]), 482, 2004),
        (sheet_with(&[record_p(), marked_one]), 518, 2004),
    ];
    for (sheet, place, feature) in cases {
        for year in years {
            let reading = read(&sheet, year);
            if u64::from(year) < feature {
                assert_eq!(reading, Err(too_new(place, feature)));
            } else {
                assert!(reading.is_ok(), "{place} {feature} {year}");
            }
        }
    }
}

#[test]
fn reference_bytes() {
    assert_eq!(refusal_p(&[(472, &[6])]), refused(7, 472));
    assert_eq!(refusal_p(&[(472, &[0x22])]), refused(7, 472));
    assert_eq!(refusal_p(&[(472, &[0x82])]), refused(7, 472));
    assert_eq!(refusal_p(&[(473, &[0x08])]), refused(9, 473));
    assert_eq!(refusal_p(&[(474, &[0x01])]), refused(7, 474));
    assert_eq!(refusal_p(&[(474, &[0x08])]), refused(7, 474));
    assert_eq!(refusal_p(&[(474, &[0x10])]), refused(9, 474));
    assert!(read(&changed(&sheet_p(), &[(474, &[0x20])]), 1999).is_ok());
}

/// In one byte: RESERVED, then TOO NEW (lowest bit first), then NOT CARRIED.
#[test]
fn order_in_one_byte() {
    let at = |changes: &[(usize, &[u8])], year| refusal(&changed(&sheet_p(), changes), year);
    assert_eq!(at(&[(472, &[0x32])], 1999), refused(7, 472));
    assert_eq!(at(&[(473, &[0xFD])], 1999), too_new(473, 2015));
    assert_eq!(at(&[(473, &[0xF8])], 1999), too_new(473, 2008));
    assert_eq!(at(&[(473, &[0xFD])], 2015), too_new(473, 2017));
    assert_eq!(at(&[(473, &[0xFD])], 2017), refused(9, 473));
    assert_eq!(at(&[(474, &[0xD1])], 1999), refused(7, 474));
    assert_eq!(at(&[(474, &[0xD0])], 1999), too_new(474, 2004));
    assert_eq!(at(&[(474, &[0xD0])], 2004), refused(9, 474));
    assert_eq!(at(&[(98, &[4])], 1999), refused(7, 98));
    assert_eq!(at(&[(447, &[0xFF])], 1999), refused(7, 447));
}

/// Faults are mended one after another; each time the next one is refused.
#[test]
fn order_by_place() {
    let full = [1; 32];
    let faults: [(usize, &[u8], Refusal); 20] = [
        (0, &[1], refused(3, 0)),
        (4, &[1], refused(4, 4)),
        (8, &[1], refused(4, 8)),
        (16, &full[..12], refused(6, 16)),
        (28, &full, refused(6, 28)),
        (64, &full, refused(6, 64)),
        (96, &[0], refused(7, 96)),
        (97, &[3], refused(7, 97)),
        (98, &[1], too_new(98, 2006)),
        (99, &[1], too_new(99, 2008)),
        (100, &[1], too_new(100, 2017)),
        (384, &[1], too_new(384, 2004)),
        (399, &[1], too_new(392, 2004)),
        (400, &[1], refused(3, 400)),
        (404, &[1], refused(4, 404)),
        (408, &full, refused(6, 408)),
        (444, &[0], refused(7, 444)),
        (446, &[6], refused(7, 446)),
        (447, &[2], too_new(447, 2017)),
        (448, &[1], refused(7, 448)),
    ];
    for first in 0..faults.len() {
        let changes: Vec<(usize, &[u8])> = faults[first..].iter().map(|f| (f.0, f.1)).collect();
        let sheet = changed(&sheet_p(), &changes);
        assert_eq!(refusal(&sheet, 1999), faults[first].2);
    }
}

#[test]
fn order_in_a_header() {
    let faults: [(usize, &[u8], Refusal); 9] = [
        (452, &[0], refused(3, 452)),
        (456, &[31], refused(10, 456)),
        (456, &[37], refused(2, 456)),
        (460, &[5], refused(10, 460)),
        (472, &[0x0F], refused(7, 472)),
        (473, &[8], too_new(473, 2008)),
        (474, &[1], refused(7, 474)),
        (482, &[0xFF, 0xFF], too_new(482, 2004)),
        (480, &[0, 0, 2, 0], refused(10, 484)),
    ];
    for first in 0..faults.len() {
        // From the last to the first, so that an earlier fault of the same
        // place is the one that stands.
        let changes: Vec<(usize, &[u8])> = faults[first..].iter().rev().map(|f| (f.0, f.1)).collect();
        let sheet = changed(&sheet_p(), &changes);
        assert_eq!(refusal(&sheet, 1999), faults[first].2, "{first}");
    }
}

#[test]
fn lengths_of_records() {
    let p = sheet_p();
    let short = |length: usize| refusal(&summed(p[..length].to_vec()), 2017);
    assert_eq!(short(452), refused(2, 452));
    assert_eq!(short(483), refused(2, 452));
    assert_eq!(short(484), refused(2, 456));
    assert_eq!(short(487), refused(2, 456));
    assert_eq!(refusal_p(&[(456, &[31])]), refused(10, 456));
    assert_eq!(refusal_p(&[(456, &[0xFF; 4])]), refused(2, 456));
    assert_eq!(refusal_p(&[(460, &[5])]), refused(10, 460));
    assert_eq!(refusal_p(&[(460, &[0xFF; 4])]), refused(10, 460));
    // A second record that is not there, and bytes that are too many.
    assert_eq!(refusal_p(&[(440, &[2])]), refused(2, 488));
    assert_eq!(refusal_p(&[(440, &[0xFF; 4])]), refused(2, 488));
    assert_eq!(refusal_p(&[(440, &[0])]), refused(13, 452));
    let mut longer = p.clone();
    longer.push(0);
    assert_eq!(refusal(&summed(longer), 2017), refused(13, 488));
}

#[test]
fn metric_parts() {
    let metric = |subobjects, points, metric: &[u8]| refusal_record(record([2, 0, 0], 0, subobjects, points, metric, &[]));
    assert_eq!(metric(0, 2, &POINT_3_4), refused(10, 484));
    assert_eq!(metric(0, 0, &POINT_3_4), refused(10, 484));
    assert_eq!(metric(0, 1, &[1, 2, 3, 4, 5]), refused(10, 488));
    assert_eq!(metric(1, 1, &POINT_3_4), refused(10, 488));
    assert_eq!(metric(1, 1, &[3, 0, 4, 0, 0, 0, 0]), refused(10, 488));
    // N1 is 1, then N2 is 1 without a point.
    assert_eq!(metric(1, 1, &[3, 0, 4, 0, 1, 0, 0, 0]), refused(11, 488));
    assert_eq!(metric(1, 1, &[3, 0, 4, 0, 0, 0, 1, 0]), refused(10, 492));
    assert_eq!(metric(1, 0, &[0, 0, 0, 0, 9]), refused(10, 488));

    let island = record([2, 0, 0], 7, 1, 0, &[0, 0, 1, 0, 8, 0, 9, 1], &[]);
    let table = read(&sheet_with(&[island]), 1999).unwrap().table;
    assert_eq!(table.numbers, [0, 0, 0, 2, 255, 7, 2, 0, 0, 0, 0, 1, 0]);
    assert_eq!(table.elements, [8, 0x109]);
}

#[test]
fn points_of_every_shape() {
    let shapes: [(u8, u8, &[usize]); 8] = [
        (0, 0, &[2, 2]),
        (0, 4, &[4, 4]),
        (4, 0, &[4, 4]),
        (4, 4, &[8, 8]),
        (0, 2, &[2, 2, 4]),
        (0, 6, &[4, 4, 4]),
        (4, 2, &[4, 4, 4]),
        (4, 6, &[8, 8, 8]),
    ];
    for (byte_21, byte_22, widths) in shapes {
        let metric: Vec<u8> = (0x81..).take(2 * widths.iter().sum::<usize>()).collect();
        let mut elements = vec![];
        let mut at = 0;
        for &width in widths.iter().chain(widths) {
            let mut bits = [0; 8];
            bits[..width].copy_from_slice(&metric[at..at + width]);
            elements.push(u64::from_le_bytes(bits));
            at += width;
        }
        let reference = [0, byte_21, byte_22];
        let sheet = sheet_with(&[record(reference, 0, 0, 2, &metric, &[])]);
        let reading = read(&sheet, 1999).unwrap();
        assert_eq!(reading.table.elements, elements);
        let written = write(1999, &reading.head, &reading.table, sheet.len());
        assert_eq!(written, Ok(sheet));
    }
}

#[test]
fn texts_of_parts() {
    let text = |localisation, metric: &[u8]| {
        let record = record([localisation, 0, 8], 0, 0, 1, metric, &[]);
        read(&sheet_with(&[record]), 2017)
    };
    for localisation in [3, 5] {
        let table = text(localisation, &[3, 0, 4, 0, 3, b'a', 0, b'c', 0]);
        let table = table.unwrap().table;
        assert_eq!(table.numbers[POINTS as usize..], [1, 3]);
        assert_eq!(table.bytes, [b'a', 0, b'c']);
        assert!(text(localisation, &[3, 0, 4, 0, 0, 0]).is_ok());
    }
    for localisation in [0, 1, 2, 4] {
        let refusal = text(localisation, &[3, 0, 4, 0, 0, 0]);
        assert_eq!(refusal, Err(refused(7, 474)));
    }
    assert_eq!(text(3, &[3, 0, 4, 0]), Err(refused(10, 488)));
    assert_eq!(text(3, &[3, 0, 4, 0, 0]), Err(refused(10, 488)));
    assert_eq!(text(3, &[3, 0, 4, 0, 2, 1, 1]), Err(refused(10, 488)));
    assert_eq!(text(3, &[3, 0, 4, 0, 2, 1, 1, 1]), Err(refused(6, 491)));
    assert_eq!(text(3, &[3, 0, 4, 0, 0, 0, 0]), Err(refused(10, 490)));
}

/// The numbers of a sheet that is written back from what is read.
fn numbers_written_back(sheet: &[u8]) -> Vec<u64> {
    let reading = read(sheet, 2004).unwrap();
    assert_eq!(write(2004, &reading.head, &reading.table, sheet.len()).as_deref(), Ok(sheet));
    reading.table.numbers
}

/// Document 02, request 2: "under the mark any count in the word is good".
#[test]
fn any_count_is_read_under_the_mark() {
    let metric = vec![1; 4 * 65536];
    let marked = |word: u64, points: usize| record([2, 0, 0], word as u32, 0, 65535, &metric[..4 * points], &[]);
    for count in [0, 1, 10, 65534, 65535, 65536] {
        let sheet = sheet_with(&[marked(count, count as usize)]);
        assert_eq!(numbers_written_back(&sheet), [0, 0, 0, 2, 255, count, 1, 0, 1, count, 0]);
        assert_eq!(refusal(&sheet, 1999), too_new(482, 2004));
    }
    // The word calls for more points than there are, or for fewer.
    for (word, points) in [(1, 0), (11, 10), (65535, 65534), (65536, 65535), (MOST, 1)] {
        assert_eq!(refusal_record(marked(word, points)), refused(10, 484));
    }
    for (word, points) in [(0, 1), (9, 10), (65533, 65534), (65534, 65535)] {
        assert_eq!(refusal_record(marked(word, points)), refused(10, 484 + 4 * word));
    }
    // Without the mark 65534 points are those at +30, whatever the word is.
    let largest = sheet_with(&[record([2, 0, 0], 9, 0, 65534, &metric[..4 * 65534], &[])]);
    assert_eq!(numbers_written_back(&largest), [0, 0, 0, 2, 255, 9, 1, 0, 0, 65534, 0]);
}

/// A first part of these points and a later one whose count is N1 and N2.
fn with_island(points: u16, shore: u64, island: u64) -> Vec<u8> {
    let [low, high, upper_low, upper_high] = (island as u32).to_le_bytes();
    let mut metric = vec![1; 4 * shore as usize];
    metric.extend_from_slice(&[upper_low, upper_high, low, high]);
    metric.resize(metric.len() + 4 * island as usize, 2);
    record([2, 0, 0], shore as u32, 1, points, &metric, &[])
}

#[test]
fn an_island_behind_a_short_shore_is_read() {
    for island in ISLANDS {
        let marked = sheet_with(&[with_island(65535, SHORE, island)]);
        assert_eq!(numbers_written_back(&marked), [0, 0, 0, 2, 255, SHORE, 2, 0, 1, SHORE, 0, island, 0]);
        assert_eq!(refusal(&marked, 1999), too_new(482, 2004));
        // Without the mark N1 must be 0.
        let unmarked = with_island(SHORE as u16, SHORE, island);
        if island > 65535 {
            assert_eq!(refusal_record(unmarked), refused(11, 524));
        } else {
            let numbers = numbers_written_back(&sheet_with(&[unmarked]));
            assert_eq!(numbers, [0, 0, 0, 2, 255, SHORE, 2, 0, 0, SHORE, 0, island, 0]);
        }
    }
    // Under the mark N1 is the upper half of the count.
    let sheet = sheet_with(&[with_island(65535, 65535, 65538)]);
    assert_eq!(numbers_written_back(&sheet)[POINTS as usize..], [65535, 0, 65538, 0]);
    let cut = changed(&sheet, &[(484 + 4 * 65535, &[2])]);
    assert_eq!(refusal(&cut, 2004), refused(10, 484 + 4 * 65535 + 4));
}

/// Faults are mended one after another; each time the next one is refused.
#[test]
fn order_about_the_mark() {
    let faulty = record([2, 0, 1], 9, 1, 65535, &[3, 0, 4, 0, 1, 0, 0, 0], &[9]);
    let mut sheet = sheet_with(&[record_p(), faulty]);
    let mut next = |year, due, place, bytes: &[u8]| {
        assert_eq!(refusal(&sheet, year), due);
        sheet = changed(&sheet, &[(place, bytes)]);
    };
    next(1999, refused(7, 510), 510, &[0]);
    next(1999, too_new(518, 2004), 518, &[9, 0]);
    next(1999, refused(10, 520), 518, &[0xFF, 0xFF]);
    next(2004, refused(10, 520), 512, &[1]);
    // N1 is 1, which is 65536 points under the mark.
    next(2004, refused(10, 528), 518, &[1, 0]);
    next(2004, refused(11, 524), 524, &[0]);
    assert_eq!(refusal(&sheet, 2004), refused(10, 528));
}

#[test]
fn semantics_flag() {
    let flag_only = changed(&sheet_p(), &[(473, &[2])]);
    assert_eq!(refusal(&flag_only, 2017), refused(10, 488));
    let bytes_only = changed(&sheet_q(), &[(473, &[0])]);
    assert_eq!(refusal(&bytes_only, 2017), refused(10, 488));
}

#[test]
fn items() {
    let accepted: [&[u8]; 11] = [
        &[1, 0, 0, 0, 0],
        &[1, 0, 126, 1, 5, 0],
        &[1, 0, 127, 1, 5, 0, 0, 0],
        &[1, 0, 1, 0x7F, 5],
        &[1, 0, 2, 0x81, 5, 6],
        &[1, 0, 4, 0, 5, 6, 7, 8],
        &[1, 0, 8, 0x80, 1, 2, 3, 4, 5, 6, 7, 8],
        &[1, 0, 128, 0xFF, 2, 0, 0, 0, 0, 0],
        &[1, 0, 128, 0xFF, 4, 0, 0, 0, 9, 9, 0, 0],
        &[1, 0, 0, 3, 0, 0, 1, 0],
        &[0xFF, 0xFF, 127, 0, 0, 0],
    ];
    let mut all = vec![];
    for item in accepted {
        let reading = read(&sheet_with_item(item), 2012).unwrap();
        let value = if item[2] == 128 { 8 } else { 4 };
        let length = (item.len() - value) as u64;
        assert_eq!(reading.table.numbers.last(), Some(&length));
        assert_eq!(reading.table.bytes, item[value..]);
        all.extend_from_slice(item);
    }
    let reading = read(&sheet_with_item(&all), 2012).unwrap();
    assert_eq!(reading.table.numbers[ITEMS as usize], 11);
    assert_eq!(reading.table.numbers.len(), 11 + 4 * 11);
}

#[test]
fn items_refused() {
    // Heads.
    assert_eq!(refusal_item(&[1]), refused(10, 488));
    assert_eq!(refusal_item(&[1, 0, 3]), refused(10, 488));
    // Types.
    for unknown in (0..=255).filter(|b| ![0, 1, 2, 4, 8, 126, 127, 128].contains(b)) {
        assert_eq!(refusal_item(&[1, 0, unknown, 0]), refused(12, 490));
    }
    // Scales.
    for whole in [1, 2, 4] {
        assert_eq!(refusal_item(&[1, 0, whole, 0x80]), refused(12, 491));
    }
    assert_eq!(refusal_item(&[1, 0, 128, 0xFE]), refused(12, 491));
    assert_eq!(refusal_item(&[1, 0, 128, 0]), refused(12, 491));
    // Lengths of type 128.
    let long = |rest: &[u8]| refusal_item(&[&[1, 0, 128, 0xFF], rest].concat());
    assert_eq!(long(&[]), refused(10, 488));
    assert_eq!(long(&[3, 0, 0]), refused(10, 488));
    assert_eq!(long(&[0, 0, 0, 0]), refused(12, 492));
    assert_eq!(long(&[1, 0, 0, 0]), refused(12, 492));
    assert_eq!(long(&[3, 0, 0, 0, 0, 0, 0]), refused(12, 492));
    assert_eq!(long(&[0xFF; 4]), refused(12, 492));
    assert_eq!(long(&[0xFE, 0xFF, 0xFF, 0xFF]), refused(10, 488));
    assert_eq!(long(&[4, 0, 0, 0, 0, 0, 0]), refused(10, 488));
    // Values that do not fit.
    assert_eq!(refusal_item(&[1, 0, 0, 1, 0]), refused(10, 488));
    assert_eq!(refusal_item(&[1, 0, 127, 0, 0]), refused(10, 488));
    assert_eq!(refusal_item(&[1, 0, 4, 0, 1, 2, 3]), refused(10, 488));
    // Closing zeros: the place is the first closing byte.
    assert_eq!(refusal_item(&[1, 0, 0, 1, 0, 7]), refused(6, 493));
    assert_eq!(refusal_item(&[1, 0, 126, 0, 7]), refused(6, 492));
    assert_eq!(refusal_item(&[1, 0, 127, 1, 7, 0, 0, 7]), refused(6, 494));
    assert_eq!(refusal_item(&[1, 0, 127, 1, 7, 0, 7, 0]), refused(6, 494));
    assert_eq!(long(&[4, 0, 0, 0, 7, 0, 0, 7]), refused(6, 498));
    assert_eq!(long(&[4, 0, 0, 0, 7, 0, 7, 0]), refused(6, 498));
    // The second item of a record.
    let second = [1, 0, 1, 0, 5, 1, 0, 3, 0];
    assert_eq!(refusal_item(&second), refused(12, 495));
}

#[test]
fn records_by_number() {
    let sheet = changed(&sheet_q(), &[(464, &[0xA0, 0xCE, 0xE9, 0x01]), (468, &[5, 0, 6, 1]), (476, &[7])]);
    let expected = Record {
        at: 452,
        total: 42,
        code: 32_100_000,
        in_group: 5,
        group: 262,
        reference: 0x0202,
        generalisation: 255,
        word: 7,
        parts: 1,
        items: 1,
        mark: 0,
        points: 1,
    };
    assert_eq!(record_at(&sheet, 1999, 0), Ok(expected));
    assert_eq!(record_at(&sheet, 1999, 1), Err(refused(16, 0)));
    assert_eq!(record_at(&sheet, 1999, u64::MAX), Err(refused(16, 0)));
    // The sheet's own refusals come first.
    let left_over = changed(&sheet, &[(440, &[0])]);
    assert_eq!(record_at(&left_over, 1999, 9), Err(refused(13, 452)));

    let marked = record([2, 0, 0], 1, 0, 65535, &POINT_3_4, &[]);
    let three = sheet_with(&[record_p(), marked, record_p()]);
    let answered = |number| record_at(&three, 2004, number).map(|record| (record.at, record.word, record.mark, record.points));
    assert_eq!(answered(0), Ok((452, 0, 0, 1)));
    assert_eq!(answered(1), Ok((488, 1, 1, 1)));
    assert_eq!(answered(2), Ok((524, 0, 0, 1)));
    assert_eq!(record_at(&three, 1999, 0), Err(too_new(518, 2004)));
}
