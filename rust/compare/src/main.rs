//! Holds the archive against GDAL's SXF driver; `rust/compare/run` builds it and gives it its arguments.
mod agree;
mod bases;
mod child;
mod damage;
mod differ;
mod gdal;
mod random;
mod refuse;
mod scratch;
mod sheets;
mod tails;
mod texts;
mod timing;
mod values;

use std::process::exit;
use sxf::Setting;

/// The setting of every reading and writing here.
const SETTING: Setting = Setting::Y2017;

fn main() {
    let arguments: Vec<String> = std::env::args().skip(1).collect();
    let arguments: Vec<&str> = arguments.iter().map(String::as_str).collect();
    if let ["ours", path] = arguments[..] {
        return child::ours(path);
    }
    let Some(gdal) = gdal::Gdal::load() else {
        println!("GDAL is not installed: there is nothing to compare with.");
        exit(2);
    };
    match arguments[..] {
        ["version"] => println!("GDAL {}", gdal.version()),
        ["agree"] => agree::run(&gdal),
        ["differ"] => differ::run(),
        ["refuse"] => refuse::run(),
        ["damage"] => damage::run(),
        ["tails"] => tails::run(&gdal),
        ["time"] => timing::run(&gdal),
        ["gdal", path] => child::gdal(&gdal, path),
        _ => {
            eprintln!("compare version | agree | differ | refuse | damage | tails | time");
            exit(1);
        }
    }
}
