//! The nine settings and the years of the features ("Years").

use crate::refusal::Refusal;

const SETTINGS: [u32; 9] = [1999, 2004, 2006, 2008, 2012, 2014, 2015, 2016, 2017];

pub(crate) const SPLINE: u64 = 2004;
pub(crate) const OFFSETS: u64 = 2004;
pub(crate) const MARK: u64 = 2004;
pub(crate) const ACCURACY: u64 = 2006;
pub(crate) const SPECIAL_SORTING: u64 = 2008;
pub(crate) const BINDING_VECTOR: u64 = 2008;
pub(crate) const UNICODE: u64 = 2008;
pub(crate) const TYPE_128: u64 = 2012;
pub(crate) const ABOVE_ALL: u64 = 2014;
pub(crate) const BELOW_ALL: u64 = 2014;
pub(crate) const COMPRESSED_GRAPHICS: u64 = 2015;
pub(crate) const MULTIPOLYGON: u64 = 2016;
pub(crate) const AUTOMATIC_GUID: u64 = 2017;
// Undated in document 000, and set to 2017 by document 01.
pub(crate) const EPSG: u64 = 2017;
pub(crate) const VERTICAL_ALIGNMENT: u64 = 2017;
pub(crate) const EDIT_DATE: u64 = 2017;

/// One of the nine years a sheet may be read or written at.
#[derive(Clone, Copy)]
pub(crate) struct Setting(u64);

impl Setting {
    /// The setting of `year`, or ASK.
    pub(crate) fn new(year: u32) -> Result<Setting, Refusal> {
        if SETTINGS.contains(&year) {
            Ok(Setting(u64::from(year)))
        } else {
            Err(Refusal::new(Refusal::ASK, 0))
        }
    }

    /// TOO NEW at `place` if a feature of `year` is used and is later than
    /// the setting.
    #[inline]
    pub(crate) fn admit(self, used: bool, year: u64, place: u64) -> Result<(), Refusal> {
        if used && self.0 < year {
            Err(Refusal::too_new(place, year))
        } else {
            Ok(())
        }
    }
}
