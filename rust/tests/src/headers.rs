//! The headers of a sheet that may be any bytes, and what of it a hop rests on.

use crate::archive::Hop;
use crate::numbers::Numbers;
use crate::stored::u32_in;
use std::iter::successors;
use sxf_sys::fields::{descriptor, header, passport, Field, LIMIT, START};
use sxf_sys::refusals::{OK, SHORT, TOO_LONG};

/// What a hop looks at before the first header, by rising place.
const OF_HEAD: [Field; 3] = [passport::IDENTIFIER, descriptor::IDENTIFIER, descriptor::COUNT];

/// What it looks at in a header, by rising place.
const OF_HEADER: [Field; 3] = [header::IDENTIFIER, header::TOTAL, header::CODE];

/// Where the headers start to which total lengths lead, as long as they are
/// whole; neither their identifiers nor the count matter.
pub fn headers(sheet: &[u8]) -> impl Iterator<Item = usize> + '_ {
    let next = |&at: &usize| {
        let total = u32_in(sheet, header::TOTAL.at(at)) as usize;
        (total >= header::SIZE).then_some(at + total)
    };
    successors(Some(START), next).take_while(|at| at + header::SIZE <= sheet.len())
}

/// The codes of these headers.
pub fn codes_in(sheet: &[u8]) -> Vec<u32> {
    headers(sheet).map(|at| u32_in(sheet, header::CODE.at(at))).collect()
}

/// A code that is none of these: one bit from one of them, unless all such are
/// among them.
pub fn no_code(codes: &[u32], numbers: &mut Numbers) -> u32 {
    let own = if codes.is_empty() { 0 } else { numbers.pick(codes) };
    let (first, others) = (numbers.below(32), 0..32);
    let beside = others.map(|bit| own ^ 1 << ((first + bit) % 32)).find(|code| !codes.contains(code));
    beside.unwrap_or_else(|| (0..).find(|code| !codes.contains(code)).unwrap_or(0))
}

/// The fields that an answer rests on. It also rests on the sheet's length, and
/// that of the frame on the code in the passport.
pub fn looked_at(sheet: &[u8], answer: &Hop) -> Vec<Field> {
    let all = OF_HEAD.into_iter().chain(headers(sheet).flat_map(|at| OF_HEADER.map(|field| field.at(at))));
    match (answer.number, answer.place) {
        (OK, _) => all.take(OF_HEAD.len() + OF_HEADER.len() * answer.looked as usize).collect(),
        (TOO_LONG | SHORT, 0) => Vec::new(),
        // What is refused at a field was found by looking at this one and those before it.
        (_, place) => all.take_while(|field| field.place <= place as usize).collect(),
    }
}

/// To how many bytes the sheet can be cut without changing an answer.
pub fn shortest(sheet: &[u8], answer: &Hop) -> usize {
    let place = answer.place as usize;
    let last = headers(sheet).take_while(|&at| at <= place).last();
    match (answer.number, place, last) {
        (OK, ..) if answer.found == 1 => (answer.at + answer.total) as usize,
        (OK, ..) => end_of(sheet, answer.looked as usize),
        (TOO_LONG, ..) => LIMIT + 1,
        (SHORT, 0, _) => 0,
        (_, ..START, _) => START,
        (_, _, Some(at)) if place < at + header::SIZE => at + header::SIZE,
        // Too few bytes are left for a header, and none will do.
        _ => place,
    }
}

/// Where so many records end, which are there.
fn end_of(sheet: &[u8], records: usize) -> usize {
    let last = headers(sheet).take(records).last();
    last.map_or(START, |at| at + u32_in(sheet, header::TOTAL.at(at)) as usize)
}

#[cfg(test)]
mod tests {
    use super::*;
    use crate::known::sheet_p;

    /// Sheet P, its record twice; and where the two records start.
    fn two() -> Vec<u8> {
        let p = sheet_p();
        let mut sheet = [&p[..], &p[START..]].concat();
        sheet[descriptor::COUNT.place] = 2;
        sheet
    }
    const FIRST: usize = 452;
    const SECOND: usize = 488;

    fn places(sheet: &[u8], answer: Hop) -> (Vec<usize>, usize) {
        (looked_at(sheet, &answer).iter().map(|field| field.place).collect(), shortest(sheet, &answer))
    }

    #[test]
    fn headers_are_found_by_total_lengths() {
        let mut sheet = two();
        assert_eq!(headers(&sheet).collect::<Vec<_>>(), [FIRST, SECOND]);
        assert_eq!(headers(&sheet[..SECOND + 31]).collect::<Vec<_>>(), [FIRST]);
        assert_eq!(headers(&sheet[..FIRST + 31]).count(), 0);
        assert_eq!(headers(&[]).count(), 0);
        // The identifier does not matter, and a length under 32 leads nowhere.
        sheet[FIRST] = 0;
        assert_eq!(headers(&sheet).count(), 2);
        sheet[FIRST + 4] = 31;
        assert_eq!(headers(&sheet).count(), 1);
    }

    #[test]
    fn what_answers_rest_on() {
        let sheet = two();
        let head = [0, 400, 440];
        let of = |fields: &[usize]| [&head[..], fields].concat();
        let refused = |number, place| Hop { number, place, ..Hop::default() };
        let hit = Hop { found: 1, at: 452, total: 36, looked: 1, ..Hop::default() };
        assert_eq!(places(&sheet, hit), (of(&[452, 456, 464]), SECOND));
        let no_hit = Hop { looked: 2, ..Hop::default() };
        assert_eq!(places(&sheet, no_hit), (of(&[452, 456, 464, 488, 492, 500]), 524));
        assert_eq!(places(&sheet, Hop::default()), (head.to_vec(), FIRST));
        assert_eq!(places(&sheet, refused(3, 488)), (of(&[452, 456, 464, 488]), 520));
        assert_eq!(places(&sheet, refused(10, 492)), (of(&[452, 456, 464, 488, 492]), 520));
        assert_eq!(places(&sheet, refused(2, 524)), (of(&[452, 456, 464, 488, 492, 500]), 524));
        assert_eq!(places(&sheet[..519], refused(2, 488)), (of(&[452, 456, 464]), SECOND));
        assert_eq!(places(&sheet, refused(3, 400)), (vec![0, 400], FIRST));
        assert_eq!(places(&sheet, refused(3, 0)), (vec![0], FIRST));
        assert_eq!(places(&sheet[..3], refused(2, 0)), (vec![], 0));
        assert_eq!(places(&sheet, refused(1, 0)), (vec![], LIMIT + 1));
    }

    #[test]
    fn a_code_that_is_none() {
        let numbers = &mut Numbers::of_case(0, 0, 0);
        let mut codes = vec![5, 7];
        for _ in 0..100 {
            let code = no_code(&codes, numbers);
            assert!(!codes.contains(&code));
            codes.push(code);
        }
        assert!((no_code(&[], numbers)).count_ones() == 1);
    }
}
