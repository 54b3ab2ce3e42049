//! Which features a sheet has, and from which year.
use crate::{check, Refusal, Setting, Sizes};
use sxf_sys::fields::{descriptor, header, passport, START};
use sxf_sys::{reference, years, Field};

/// A feature of a sheet that some settings meet first, and refuse the sheet for.
#[derive(Clone, Copy, Debug, PartialEq, Eq)]
pub struct Feature {
    /// The oldest setting that meets it first. So do all from there to before the feature's year: what stands before it in the sheet is
    /// of this setting's year or older.
    pub setting: Setting,
    /// Where it stands in the sheet.
    pub place: usize,
    /// The year that it came in.
    pub year: u32,
}

/// What the settings answer on a sheet.
#[derive(Clone, Debug, PartialEq, Eq)]
pub struct Years {
    /// The features that settings meet first, by rising year. Each setting before the first that accepts the sheet meets one of them.
    pub features: Vec<Feature>,
    /// The first setting that accepts the sheet, or the refusal that the settings after the last feature give.
    pub outcome: Result<(Setting, Sizes), Refusal>,
}

/// Asks the library at the oldest setting, then at the year of the feature it meets, and so on until the sheet is accepted or refused.
///
/// ```
/// use sxf::{years, Setting};
/// let sheet = include_bytes!("../../../samples/dated.sxf");
/// let years = years::of(sheet);
/// assert_eq!(years.features.first().map(|f| (f.place, f.year)), Some((98, 2006)));
/// assert_eq!(years.outcome.map(|(setting, _)| setting), Ok(Setting::Y2017));
/// ```
pub fn of(sheet: &[u8]) -> Years {
    let mut features = Vec::new();
    let mut setting = Setting::Y1999;
    loop {
        let refusal = match check(sheet, setting) {
            Ok(sizes) => return Years { features, outcome: Ok((setting, sizes)) },
            Err(refusal) => refusal,
        };
        match next(setting, &refusal) {
            None => return Years { features, outcome: Err(refusal) },
            Some(later) => {
                features.push(Feature { setting, place: refusal.place, year: refusal.year });
                setting = later;
            }
        }
    }
}

/// The setting of the feature's year. It is later than the one asked, so the loop ends.
fn next(setting: Setting, refusal: &Refusal) -> Option<Setting> {
    let later = |year| Setting::ALL.into_iter().find(|s| s.year() >= year && *s > setting);
    (refusal.number == Refusal::TOO_NEW).then(|| later(refusal.year)).flatten()
}

impl Feature {
    /// What it is, in the document's words. The library gives place and year; the name is read off the byte there.
    pub fn name(&self, sheet: &[u8]) -> &'static str {
        let byte = sheet.get(self.place).copied().unwrap_or(0);
        let of_rest = OF_REST.iter().find(|(field, _)| field.place == self.place);
        match of_rest {
            Some((_, name)) => name,
            None if self.place == descriptor::KEEPING.place && byte & 1 != 0 => "automatic GUID",
            None if self.place == descriptor::KEEPING.place => "edit date",
            None => self.of_record(self.place - record_start(sheet, self.place), byte),
        }
    }

    /// The name of a feature at a byte of a record. Two features of byte 21 came in 2008 and two in 2014: of each pair the lower bit is the
    /// one that a setting meets first.
    fn of_record(&self, within: usize, byte: u8) -> &'static str {
        const BYTE20: usize = header::BYTE20.place;
        const BYTE21: usize = header::BYTE21.place;
        const BYTE22: usize = header::BYTE22.place;
        const POINTS: usize = header::POINTS.place;
        let byte21_has = |bit: u64| u64::from(byte) << 8 & bit != 0;
        match (within, self.year) {
            (BYTE20, _) => "multipolygon",
            (BYTE21, years::BINDING_VECTOR) if byte21_has(reference::BINDING_VECTOR) => "binding vector",
            (BYTE21, years::UNICODE) => "Unicode",
            (BYTE21, years::ABOVE_ALL) if byte21_has(reference::ABOVE_ALL) => "above all",
            (BYTE21, years::BELOW_ALL) => "below all",
            (BYTE21, years::COMPRESSED_GRAPHICS) => "compressed graphics",
            (BYTE21, _) => "vertical alignment",
            (BYTE22, _) => "spline bits",
            (POINTS, _) => "the mark 65535",
            (header::SIZE.., years::TYPE_128) => "item of type 128",
            _ => "feature",
        }
    }
}

/// The features of the passport's rest, each alone at its place.
const OF_REST: [(Field, &str); 5] = [
    (passport::ACCURACY, "accuracy not 0"),
    (passport::SORTING, "special sorting"),
    (passport::EPSG, "EPSG not 0"),
    (passport::NORTH, "north offset"),
    (passport::EAST, "east offset"),
];

/// Where the record starts that a place after the descriptor is in. The records before it have been accepted.
fn record_start(sheet: &[u8], place: usize) -> usize {
    let mut start = START.min(place);
    while let Some(next) = next_record(sheet, start).filter(|&next| next > start && next <= place) {
        start = next;
    }
    start
}

fn next_record(sheet: &[u8], start: usize) -> Option<usize> {
    let total = sheet.get(header::TOTAL.at(start).range())?.first_chunk()?;
    start.checked_add(u32::from_le_bytes(*total) as usize)
}
