//! `sxf table`: head and record table as JSON lines.
use crate::escapes::Escapes;
use crate::failure::Failure;
use crate::hex::Hex;
use crate::input;
use crate::json::{HeadLine, ItemLine, PartLine, RecordLine, EDITION, FORMAT};
use crate::points::Stored;
use crate::text;
use serde::Serialize;
use std::borrow::Cow;
use std::io::{self, Write};
use std::path::Path;
use sxf::{Head, Item, Part, Record, Reference, Setting, Tail, Tails, Text};

/// Each text as characters where it can be, or as bytes alone.
pub fn run(file: &Path, as_bytes: bool, setting: Setting, out: &mut dyn Write) -> Result<(), Failure> {
    let bytes = input::bytes(file)?;
    let sheet = input::sheet(file, &bytes, setting)?;
    let refused = |refusal| Failure::refused(file, refusal);
    let (head, tails) = (sheet.head().map_err(refused)?, sheet.tails().map_err(refused)?);
    line(&head_line(&head, &tails, as_bytes, sheet.record_count()), out)?;
    sheet.records().try_for_each(|record| line(&record_line(&record, as_bytes), out))
}

fn line(line: &impl Serialize, out: &mut dyn Write) -> Result<(), Failure> {
    line.serialize(&mut serde_json::Serializer::with_formatter(&mut *out, Escapes)).map_err(io::Error::from)?;
    out.write_all(b"\n")?;
    Ok(())
}

fn head_line<'a>(head: &Head<'a>, tails: &Tails<'a>, as_bytes: bool, records: usize) -> HeadLine<'a> {
    let fields = |bytes| text::fields(&Text { coding: Head::CODING, bytes }, as_bytes);
    let dirty = |tail: Tail<'a>| (!tail.is_clean()).then_some(Hex::of(tail.bytes));
    let (date, date_bytes) = fields(head.date);
    let (designation, designation_bytes) = fields(head.designation);
    let (title, title_bytes) = fields(head.title);
    let (designation2, designation2_bytes) = fields(head.designation2);
    HeadLine {
        sxf: Cow::Borrowed(EDITION),
        format: FORMAT,
        date,
        date_bytes,
        date_tail: dirty(tails.date),
        designation,
        designation_bytes,
        designation_tail: dirty(tails.designation),
        scale: head.scale,
        title,
        title_bytes,
        title_tail: dirty(tails.title),
        rest: Hex::of(head.rest),
        designation2,
        designation2_bytes,
        designation2_tail: dirty(tails.designation2),
        carried: Hex::of(head.carried),
        records: Some(records as u64),
    }
}

fn record_line<'a>(record: &Record<'a>, as_bytes: bool) -> RecordLine<'a, Stored<'a>> {
    RecordLine {
        code: record.code().into(),
        in_group: record.in_group().into(),
        group: record.group().into(),
        reference: record.reference().0.into(),
        generalisation: record.generalisation().into(),
        word: record.word().into(),
        mark: record.mark().then_some(1),
        parts: record.parts().map(|part| part_line(record.reference(), &part, as_bytes)).collect(),
        items: record.items().map(|item| item_line(&item, as_bytes)).collect(),
    }
}

fn part_line<'a>(reference: Reference, part: &Part<'a>, as_bytes: bool) -> PartLine<'a, Stored<'a>> {
    let text = part.text().filter(|text| !text.bytes.is_empty());
    let (label, label_bytes) = text.map_or((None, None), |text| text::fields(&text, as_bytes));
    PartLine { points: Stored::of(reference, part.elements()), label, label_bytes }
}

fn item_line<'a>(item: &Item<'a>, as_bytes: bool) -> ItemLine<'a> {
    let text = if as_bytes { None } else { text::of_item(item) };
    let (scale, value) = match text {
        Some(_) => (None, None),
        None => (Some(item.scale.into()), Some(Hex::of(item.bytes))),
    };
    ItemLine { code: item.code.into(), kind: item.kind.into(), text, scale, value }
}
