//! `sxf years`: from which year on a sheet is accepted, and what older settings refuse it for.
use crate::failure::Failure;
use crate::input;
use std::io::Write;
use std::path::Path;
use sxf::years::{self, Feature};
use sxf::Setting;

pub fn run(file: &Path, out: &mut dyn Write) -> Result<(), Failure> {
    let bytes = input::bytes(file)?;
    let years = years::of(&bytes);
    for feature in &years.features {
        let (place, year, name) = (feature.place, feature.year, feature.name(&bytes));
        writeln!(out, "{year} at {place} ({place:#x}): {name}; met first by {}", met_by(feature))?;
    }
    let (first, _) = years.outcome.map_err(|refusal| Failure::refused(file, refusal))?;
    writeln!(out, "accepted from {first} on")?;
    Ok(())
}

/// The settings from the one asked to before the feature's year.
fn met_by(feature: &Feature) -> String {
    let last = Setting::ALL.into_iter().rev().find(|setting| setting.year() < feature.year);
    match last.filter(|last| *last > feature.setting) {
        Some(last) => format!("{} to {last}", feature.setting),
        None => feature.setting.to_string(),
    }
}
