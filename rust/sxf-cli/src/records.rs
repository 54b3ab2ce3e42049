//! The record table of a sheet that is written, out of the records' JSON lines.
use crate::json::{ItemLine, PartLine, RecordLine};
use crate::points::Points;
use crate::text::Given;
use std::borrow::Cow;
use sxf::table::needs_mark;
use sxf::{row, Coding, NewItem, Reference, Refusal, Row, Table};

/// The table, and the first line of each of its records.
pub struct Records {
    pub table: Table,
    lines: Vec<usize>,
    /// The coding of labels that the head states, or what is told of a label where it states none.
    labels: Result<Coding, String>,
}

impl Records {
    pub fn new(labels: Result<Coding, String>) -> Records {
        Records { table: Table::default(), lines: Vec::new(), labels }
    }

    pub fn len(&self) -> usize {
        self.lines.len()
    }

    /// A refusal of the table, with the line and the field that it is about in brackets.
    pub fn told(&self, refusal: &Refusal) -> String {
        let spot = self.table.lend().spot(refusal.place);
        let place = match spot.and_then(|spot| Some((spot, self.lines.get(spot.record)?))) {
            Some((spot, line)) => format!("line {line}, {spot}"),
            None => "an index of the record table".to_string(),
        };
        let told = match self.meaning(refusal) {
            Some(meaning) => refusal.meaning_here(meaning),
            None => refusal.to_string(),
        };
        format!("{told} ({place})")
    }

    /// What is to be changed, where the mark is refused or a count does not go with it.
    fn meaning(&self, refusal: &Refusal) -> Option<String> {
        let (number, spot) = (self.table.numbers.get(refusal.place)?, self.table.lend().spot(refusal.place)?);
        match refusal.number {
            Refusal::TABLE if spot.own() == Some(row::MARK) => Some(format!("mark is {number}; it must be 0 or 1")),
            Refusal::COUNT => Some(count_meaning(&self.table.rows().nth(spot.record)?, *number)),
            _ => None,
        }
    }

    /// Adds a record's row and what it has in the pools. The numbers are the line's, also where they are too large for their fields: the
    /// library refuses such a table, and says where.
    pub fn push(&mut self, line: usize, record: &RecordLine<'_, Points>) -> Result<(), String> {
        let &RecordLine { code, in_group, group, reference, generalisation, word, .. } = record;
        let (parts, items) = (record.parts.len() as u64, record.items.len() as u64);
        let row = row::Record { code, in_group, group, reference, generalisation, word, parts, items, mark: mark(record) };
        self.lines.push(line);
        self.table.numbers.extend(row.numbers());
        for (number, part) in record.parts.iter().enumerate() {
            self.push_part(reference, part).map_err(|what| format!("part {number}: {what}"))?;
        }
        for (number, item) in record.items.iter().enumerate() {
            self.push_item(item).map_err(|what| format!("item {number}: {what}"))?;
        }
        Ok(())
    }

    fn push_part(&mut self, reference: u64, part: &PartLine<'_, Points>) -> Result<(), String> {
        let label = Given::of("label", &part.label, &part.label_bytes)?;
        // A number too large for the reference bytes is refused by the library before it looks at any text or point.
        let reference = u32::try_from(reference).ok().filter(|reference| reference >> 24 == 0).map(Reference);
        let text = match (label, reference) {
            (Some(label), Some(reference)) => self.label(label, reference)?,
            _ => Cow::default(),
        };
        self.table.numbers.extend(row::Part { points: part.points.len() as u64, text_length: text.len() as u64 }.numbers());
        self.table.bytes.extend_from_slice(&text);
        if let Some(reference) = reference {
            part.points.add_bits(reference, &mut self.table.elements)?;
        }
        Ok(())
    }

    /// The bytes of a label. Those that are given as bytes need no coding.
    fn label<'a>(&self, label: Given<'a>, reference: Reference) -> Result<Cow<'a, [u8]>, String> {
        match label {
            Given::Bytes(bytes) => Ok(Cow::Borrowed(bytes)),
            Given::Characters(_) => {
                let coding = reference.label_coding().map_or_else(|| self.labels.clone(), Ok);
                let turned = coding.and_then(|coding| label.bytes(coding).map_err(|none| none.to_string()));
                turned.map_err(|what| format!("label: {what}"))
            }
        }
    }

    fn push_item(&mut self, item: &ItemLine<'_>) -> Result<(), String> {
        let (scale, value) = scale_and_value(item)?;
        let &ItemLine { code, kind, .. } = item;
        self.table.numbers.extend(row::Item { code, kind, scale, length: value.len() as u64 }.numbers());
        self.table.bytes.extend_from_slice(&value);
        Ok(())
    }
}

/// What is to be changed in a row that is refused for the points of a part. Without the mark they need it; with it they are the first part's, and
/// the word differs.
fn count_meaning(row: &Row<'_>, points: u64) -> String {
    let row::Record { word, mark, .. } = row::Record::of(row.numbers);
    if mark == 0 {
        return format!("mark is 0; {points} points need it to be 1");
    }
    let counts = row.parts.iter().map(|part| part[row::POINTS]);
    let why = match counts.clone().max() {
        Some(most) if needs_mark(counts) => format!(", which {most} points need,"),
        _ => String::new(),
    };
    format!("word is {word}; under the mark{why} it must be {points}, the first part's points")
}

/// The mark that a line states. Where it states none, its points say whether it is needed.
fn mark(record: &RecordLine<'_, Points>) -> u64 {
    let points = record.parts.iter().map(|part| part.points.len() as u64);
    record.mark.unwrap_or_else(|| needs_mark(points).into())
}

/// The scale byte and the value of an item, which its line has, or gives as the characters of a text.
fn scale_and_value<'a>(item: &'a ItemLine<'_>) -> Result<(u64, Cow<'a, [u8]>), String> {
    match (&item.text, item.scale, &item.value) {
        (None, Some(scale), Some(value)) => Ok((scale, Cow::Borrowed(&value.0))),
        (Some(text), None, None) => text_value(item.kind, text),
        (Some(_), ..) => Err("text beside scale or value, which are worked out from it".to_string()),
        (None, ..) => Err("scale and value, or a text, should be there".to_string()),
    }
}

fn text_value<'a>(kind: u64, text: &str) -> Result<(u64, Cow<'a, [u8]>), String> {
    let textual = u8::try_from(kind).ok().filter(|&kind| Coding::of_item(kind).is_some());
    let kind = textual.ok_or_else(|| format!("text, where type {kind} has none; types 0, 126, 127 and 128 have"))?;
    // The code is the line's own, which may be too large for its field.
    let item = NewItem::string(0, kind, text).map_err(|none| format!("text: {none}"))?;
    Ok((item.scale.into(), Cow::Owned(item.bytes)))
}
