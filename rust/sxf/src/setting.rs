//! The nine settings: the year that a sheet is read or written for.
use crate::Refusal;
use std::fmt;
use sxf_sys::{lent, refusals};

/// One of the nine years.
///
/// ```
/// use sxf::{Refusal, Setting};
/// assert_eq!(Setting::new(2012), Ok(Setting::Y2012));
/// assert_eq!(Setting::new(2005).unwrap_err().number, Refusal::ASK);
/// ```
#[derive(Clone, Copy, Debug, PartialEq, Eq, PartialOrd, Ord, Hash)]
pub struct Setting {
    year: u32,
}

macro_rules! years {
    ($($constant:ident $year:literal)*) => {
        impl Setting {
            $(
                #[doc = concat!("The setting ", $year, ".")]
                pub const $constant: Setting = Setting { year: $year };
            )*

            /// All nine, the oldest first.
            pub const ALL: [Setting; 9] = [$(Setting::$constant),*];
        }
    };
}

years! { Y1999 1999 Y2004 2004 Y2006 2006 Y2008 2008 Y2012 2012 Y2014 2014 Y2015 2015 Y2016 2016 Y2017 2017 }

impl Setting {
    /// The setting of a year that comes from outside, or ASK. The library is asked whether there is one: the setting is the first thing it
    /// looks at.
    pub fn new(year: u32) -> Result<Setting, Refusal> {
        match lent::check(&[], year).number {
            refusals::ASK => Err(Refusal::NO_SUCH),
            _ => Ok(Setting { year }),
        }
    }

    /// Its year.
    pub fn year(self) -> u32 {
        self.year
    }
}

impl fmt::Display for Setting {
    fn fmt(&self, f: &mut fmt::Formatter<'_>) -> fmt::Result {
        self.year.fmt(f)
    }
}

#[cfg(test)]
mod tests {
    use super::*;
    use sxf_sys::years::SETTINGS;

    #[test]
    fn the_library_has_these_nine_and_no_other() {
        let had: Vec<Setting> = (0..3000).filter_map(|year| Setting::new(year).ok()).collect();
        assert_eq!(had, Setting::ALL);
        assert_eq!(Setting::ALL.map(Setting::year), SETTINGS);
        assert!(Setting::new(u32::MAX).is_err());
    }
}
