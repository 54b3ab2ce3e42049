//! The head of a sheet that is written, out of its JSON line or of the sheet that it was read from.
use crate::hex::Hex;
use crate::json::{HeadLine, EDITION};
use crate::tails;
use crate::text::Given;
use sxf::fields::{descriptor, passport, Carried, Rest};
use sxf::tails::letters;
use sxf::{Head, Tails};

/// The head with texts of its own, and what is told of the old letters that it is written without.
pub struct OwnHead {
    date: Vec<u8>,
    designation: Vec<u8>,
    scale: u32,
    title: Vec<u8>,
    rest: Rest,
    designation2: Vec<u8>,
    carried: Carried,
    /// A sentence for each tail that the line or the sheet has and that is not clean.
    pub cleared: Vec<String>,
}

impl OwnHead {
    pub fn of(line: &HeadLine<'_>) -> Result<OwnHead, String> {
        if line.sxf != EDITION {
            return Err(format!("sxf is {:?}, where this writes {EDITION:?}", line.sxf));
        }
        Ok(OwnHead {
            date: text("date", &line.date, &line.date_bytes)?,
            designation: text("designation", &line.designation, &line.designation_bytes)?,
            scale: line.scale,
            title: text("title", &line.title, &line.title_bytes)?,
            rest: fixed("rest", &line.rest)?,
            designation2: text("designation2", &line.designation2, &line.designation2_bytes)?,
            carried: fixed("flags", &line.carried)?,
            cleared: cleared(line)?,
        })
    }

    /// The head of a sheet that was read, and its tails.
    pub fn copied(head: &Head<'_>, tails: &Tails<'_>) -> OwnHead {
        OwnHead {
            date: head.date.to_vec(),
            designation: head.designation.to_vec(),
            scale: head.scale,
            title: head.title.to_vec(),
            rest: *head.rest,
            designation2: head.designation2.to_vec(),
            carried: *head.carried,
            cleared: tails.dirty().map(|(name, tail)| tails::cleared(name, tail.letters())).collect(),
        }
    }

    pub fn lend(&self) -> Head<'_> {
        Head {
            date: &self.date,
            designation: &self.designation,
            scale: self.scale,
            title: &self.title,
            rest: &self.rest,
            designation2: &self.designation2,
            carried: &self.carried,
        }
    }
}

/// What is told of the old letters that a line has in its tails.
fn cleared(line: &HeadLine<'_>) -> Result<Vec<String>, String> {
    let mut told = Vec::new();
    for (name, field, tail) in [
        ("date", passport::DATE, &line.date_tail),
        ("designation", passport::DESIGNATION, &line.designation_tail),
        ("title", passport::TITLE, &line.title_tail),
        ("designation2", descriptor::DESIGNATION, &line.designation2_tail),
    ] {
        let Some(Hex(tail)) = tail else { continue };
        // The text's zero stands before it.
        let most = field.width - 1;
        if tail.len() > most {
            return Err(format!("{name}_tail has {} bytes, where it has at most {most} in a sheet", tail.len()));
        }
        let letters = letters(tail);
        if !letters.is_empty() {
            told.push(tails::cleared(name, letters));
        }
    }
    Ok(told)
}

/// The bytes of a text, which a head must have in one of its two fields.
fn text(name: &str, characters: &Option<String>, bytes: &Option<Hex<'_>>) -> Result<Vec<u8>, String> {
    let given = Given::of(name, characters, bytes)?.ok_or_else(|| format!("neither {name} nor {name}_bytes is there"))?;
    given.bytes(Head::CODING).map(|bytes| bytes.into_owned()).map_err(|none| format!("{name}: {none}"))
}

fn fixed<const N: usize>(name: &str, bytes: &Hex<'_>) -> Result<[u8; N], String> {
    let wrong = |_| format!("{name} has {} bytes, where it has {N} in a sheet", bytes.0.len());
    bytes.0.as_ref().try_into().map_err(wrong)
}
