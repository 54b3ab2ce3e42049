//! `sxf write`: a sheet from JSON lines.
use crate::failure::{say, Failure};
use crate::head::OwnHead;
use crate::input;
use crate::json::{HeadLine, RecordLine, FORMAT};
use crate::lines::Lines;
use crate::object::Object;
use crate::output::{self, Target};
use crate::points::Points;
use crate::records::Records;
use serde_json::Value;
use std::io::{Read, Write};
use std::path::Path;
use sxf::fields::passport;
use sxf::writer::check_head;
use sxf::{Coding, Head, Refusal, Setting};

pub fn run(json: &Path, target: &Target<'_>, setting: Setting, out: &mut dyn Write) -> Result<(), Failure> {
    let (head, records) = taken(Lines::new(input::open(json)?)).map_err(|what| Failure::trouble(json, what))?;
    let lent = head.lend();
    let sheet =
        sxf::write(&lent, records.table.lend(), setting).map_err(|refusal| told(json, &lent, &records, setting, refusal))?;
    output::whole(target, &sheet, out, || head.cleared.iter().try_for_each(|what| say(json, what)))
}

/// The refusal with the line of the JSON that it is about.
fn told(json: &Path, head: &Head<'_>, records: &Records, setting: Setting, refusal: Refusal) -> Failure {
    let whole = [Refusal::TOO_LONG, Refusal::ROOM, Refusal::ASK].contains(&refusal.number);
    let told = if whole {
        refusal.to_string()
    } else if check_head(head, setting).is_err() {
        format!("{refusal} (the head; the place is the sheet's)")
    } else {
        records.told(&refusal)
    };
    Failure::Refused(format!("{}: {told}", json.display()))
}

/// The head and the records. The lines are given back with it, so that the longest is not in memory beside the sheet that is written.
fn taken<R: Read>(mut lines: Lines<R>) -> Result<(OwnHead, Records), String> {
    if !lines.next()? {
        return Err("no line, where the head should be".to_string());
    }
    let line = head_line(&lines)?;
    let head = OwnHead::of(&line).map_err(|what| lines.told(&format!("the head: {what}")))?;
    let mut records = Records::new(labels(&head.lend(), lines.first()));
    while lines.next()? {
        let record = record_line(&lines)?;
        records.push(lines.first(), &record).map_err(|what| lines.told(&what))?;
    }
    match line.records {
        Some(stated) if stated != records.len() as u64 => {
            Err(format!("records are {}, where the head says {stated}", records.len()))
        }
        _ => Ok((head, records)),
    }
}

/// The coding of labels, or what is told of a label where the head, on this line, has none.
fn labels(head: &Head<'_>, line: usize) -> Result<Coding, String> {
    let (place, byte) = (passport::LABELS.place, head.rest[passport::in_rest(passport::LABELS).place]);
    let none =
        || format!("the head (line {line}) has no coding for it: byte {place} of the sheet, in rest, is {byte}, and not 0 to 2");
    head.label_coding().ok_or_else(none)
}

/// Why a line of the first format is not taken.
const STORED_BITS: &str = "whose elements are stored bits, which tools round";

/// Why a line of the second format is not taken.
const DIGITS: &str = "whose parts have hexadecimal digits as text";

/// What is told of a line of an older format.
fn old_kind(why: &str) -> String {
    format!(
        "a line of the old kind, {why}; print it again from its sheet by this `sxf table`, or, where only the lines are left, \
         write the sheet by the sxf that printed them"
    )
}

/// The head, if it is of this format: in another one its fields may be others.
fn head_line<R: Read>(lines: &Lines<R>) -> Result<HeadLine<'static>, String> {
    let head: Value = lines.parsed()?;
    match head.get("format") {
        None if head.get("sxf").is_some() => Err(lines.told(&old_kind(STORED_BITS))),
        Some(format) if format.as_f64() != Some(FORMAT as f64) => {
            Err(lines.told(&format!("format is {format}, where this reads {FORMAT}; write the sheet by the sxf that printed it")))
        }
        _ => lines.parsed().map(|Object(head)| head),
    }
}

/// A record. One of an older format may stand under a head of this one; its parts have a field that is none of this format.
fn record_line<R: Read>(lines: &Lines<R>) -> Result<RecordLine<'static, Points>, String> {
    let told = |what| {
        let why = lines.parsed().ok().and_then(|record| older(&record));
        why.map_or(what, |why| lines.told(&old_kind(why)))
    };
    lines.parsed().map(|Object(record)| record).map_err(told)
}

/// Why a record of an older format is not taken; none where it is none.
fn older(record: &Value) -> Option<&'static str> {
    let parts = record["parts"].as_array()?;
    let has = |field| parts.iter().any(|part| part.get(field).is_some());
    [("elements", STORED_BITS), ("text", DIGITS)].into_iter().find_map(|(field, why)| has(field).then_some(why))
}
