//! Text of a coding, turned to UTF-16 and back.

use super::{hex, rooms, written, Judge, TOLD};
use crate::archive;
use crate::numbers::Numbers;
use crate::tally::{Call, Reason, Way, Where};
use second::Refusal;
use std::mem::take;
use sxf_sys::refusals::{NO_CHARACTER, OK};

impl Judge {
    /// Turns a text there with all rooms, and what became of it back, and
    /// tells whether it is turned. The text lies between guards, and is found
    /// whole after.
    pub fn text(&mut self, coding: u32, text: &[u8], numbers: &mut Numbers) -> bool {
        if self.tells && text.len() <= TOLD {
            self.note(format!("text {}", hex(text)));
        }
        let mut held = take(&mut self.text);
        held.hold(text);
        let mut turned = false;
        for room in rooms(text.len(), numbers) {
            turned = self.to_utf16(coding, held.slice(), room);
        }
        let asked = || format!("there and back in coding {coding:#x}");
        if turned {
            let there = take(&mut self.units_out);
            self.from_utf16(coding, there.slice(), text.len());
            self.units_out = there;
            let found = self.out.holds(text);
            self.whole(asked, "bytes", found);
        }
        let is_whole = held.holds(text);
        self.whole(asked, "bytes lent", is_whole);
        self.text = held;
        turned
    }

    /// Turns units back with all rooms, and what became of them there, and
    /// tells whether they are turned. They lie between guards, and are found
    /// whole after.
    pub fn units(&mut self, coding: u32, units: &[u16], numbers: &mut Numbers) -> bool {
        if self.tells && units.len() <= TOLD {
            self.note(format!("units {units:04x?}"));
        }
        let mut held = take(&mut self.units);
        held.hold(units);
        let mut turned = false;
        for room in rooms(units.len(), numbers) {
            turned = self.from_utf16(coding, held.slice(), room);
        }
        let asked = || format!("back and there in coding {coding:#x}");
        if turned {
            let back = take(&mut self.out);
            self.to_utf16(coding, back.slice(), units.len());
            self.out = back;
            let found = self.units_out.holds(units);
            self.whole(asked, "units", found);
        }
        let is_whole = held.holds(units);
        self.whole(asked, "units lent", is_whole);
        self.units = held;
        turned
    }

    /// Turns a text there into a slice of this length, and tells whether it is
    /// turned.
    pub fn to_utf16(&mut self, coding: u32, text: &[u8], room: usize) -> bool {
        let answer = archive::to_utf16(coding, text, self.units_out.lend(room));
        self.meet(Call::ToUtf16, answer.number);
        let due = second::to_utf16(coding, text, room);
        match &due {
            Ok(_) => self.met.there[coding as usize] = 1,
            Err(refusal) => self.meet_character(Way::There, text.len(), *refusal),
        }
        let asked = || format!("{} bytes of coding {coding:#x} into {room} units", text.len());
        self.same(asked, answer, written(&due));
        let found = self.units_out.holds(due.as_deref().unwrap_or_default());
        self.whole(asked, "units", found);
        answer.number == OK
    }

    /// Turns units back into a slice of this length, and tells whether they
    /// are turned.
    pub fn from_utf16(&mut self, coding: u32, units: &[u16], room: usize) -> bool {
        let answer = archive::from_utf16(coding, units, self.out.lend(room));
        self.meet(Call::FromUtf16, answer.number);
        let due = second::from_utf16(coding, units, room);
        match &due {
            Ok(_) => self.met.back[coding as usize] = 1,
            Err(refusal) => self.meet_character(Way::Back, units.len(), *refusal),
        }
        let asked = || format!("{} units into {room} bytes of coding {coding:#x}", units.len());
        self.same(asked, answer, written(&due));
        let found = self.out.holds(due.as_deref().unwrap_or_default());
        self.whole(asked, "bytes", found);
        answer.number == OK
    }

    fn meet_character(&mut self, way: Way, length: usize, Refusal { number, place, year }: Refusal) {
        let at = match (number, place) {
            (NO_CHARACTER, 0) => Where::FirstCharacter,
            (NO_CHARACTER, place) if place + 1 == length as u64 => Where::LastCharacter,
            (NO_CHARACTER, _) => Where::InnerCharacter,
            _ => Where::Asked,
        };
        self.meet_reason(Reason { way, number, at, year });
    }
}
