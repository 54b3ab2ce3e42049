//! Sheets with every character: each byte of the three codings, each unit of UTF-16 that is a character, and pairs.
use sxf::fields::passport;
use sxf::{Head, Localisation, NewItem, NewPart, NewRecord, Reference, Setting, Writer};

/// What a label or a value of one byte a character holds.
const LONGEST: usize = 255;

/// The one byte of page 1251 that has no character.
const NO_CHARACTER: u8 = 0x98;

/// All bytes that have a character.
fn bytes(windows: bool) -> Vec<u8> {
    (0..=255).filter(|&byte| !windows || byte != NO_CHARACTER).collect()
}

/// All characters of one unit, and pairs with every high half.
fn characters() -> String {
    let pairs = (0x1_0000..=0x10_FFFF).step_by(0x3FF);
    (0..=0xFFFF).chain(pairs).filter_map(char::from_u32).collect()
}

/// Items of one byte a character: type 0 is DOS, 126 Windows.
fn one_byte_items(kind: u8) -> Vec<NewItem> {
    let all = bytes(kind == 126);
    let item = |text: &[u8]| NewItem { code: 1, kind, scale: text.len() as u8, bytes: [text, &[0]].concat() };
    all.chunks(LONGEST).map(item).collect()
}

/// The sheet whose byte 97 is this.
pub fn sheet(labels: u8) -> Vec<u8> {
    let mut rest = *Head::PLAIN.rest;
    rest[passport::in_rest(passport::LABELS).place] = labels;
    let printed: Vec<u8> = bytes(true).into_iter().filter(|&byte| byte != 0).collect();
    let (date, rows) = (&printed[..11], printed[11..].chunks(31).collect::<Vec<_>>());
    let head = Head { date, designation: rows[0], title: rows[3], designation2: rows[5], rest: &rest, ..Head::PLAIN };
    let reference = Reference::new(Localisation::Label).with(Reference::TEXT_IN_METRIC);
    let label = |text: &[u8]| NewPart::new(Vec::new()).text(text);
    let mut record = bytes(labels == 1).chunks(LONGEST).map(label).fold(NewRecord::new(1, reference), NewRecord::part);
    let characters = characters();
    record = [one_byte_items(0), one_byte_items(126)].into_iter().flatten().fold(record, NewRecord::item);
    record = record.item(NewItem::string(1, 128, &characters).expect("a text"));
    record = record.item(NewItem::string(1, 127, &characters.chars().take(LONGEST).collect::<String>()).expect("a text"));
    let wide: Vec<u8> = characters.encode_utf16().flat_map(u16::to_le_bytes).collect();
    // The first units, and the last pairs, of four bytes each.
    let (first, last) = (&wide[..254], &wide[wide.len() - 4 * 63..]);
    let unicode = NewRecord::new(2, reference.with(Reference::UNICODE)).part(label(first)).part(label(last));
    let mut writer = Writer::new(head).expect("a head");
    [record, unicode].iter().for_each(|record| writer.push(record).expect("no points"));
    writer.write(Setting::Y2017).expect("a sheet")
}
