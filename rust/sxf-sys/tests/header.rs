//! Holds what this crate declares against `include/sxf.h`: each number, and each struct and call with the names, the order and the types of
//! its fields and parameters.
use sxf_sys::fields::{descriptor, passport, START};
use sxf_sys::{codings, dimensions, index, kinds, lent, refusals, row, units, Carried, Rest, LIMIT, VERSION};

const HEADER: &str = include_str!("../../../include/sxf.h");
const CALLS: &str = include_str!("../src/calls.rs");

fn without_comments(c: &str) -> String {
    let code = |piece: &str| piece.split_once("*/").map_or(piece, |(_, code)| code).to_string();
    c.split("/*").map(code).collect()
}

/// What stands between each `start` and the `end` that follows it.
fn between<'a>(text: &'a str, start: &'a str, end: &'a str) -> Vec<&'a str> {
    text.split(start).skip(1).map(|piece| piece.split(end).next().unwrap_or(piece)).collect()
}

/// The numbers that the header names.
fn numbers(header: &str) -> Vec<(String, u64)> {
    let number = |line: &str| {
        let (name, value) = line.split_once('=').expect("a number has a value");
        (name.trim().to_string(), value.trim().parse().expect("a number in digits"))
    };
    between(header, "enum {", "}").iter().flat_map(|body| body.split(',')).map(number).collect()
}

#[test]
fn numbers_are_the_headers() {
    let ours = [
        ("SXF_OK", refusals::OK),
        ("SXF_TOO_LONG", refusals::TOO_LONG),
        ("SXF_SHORT", refusals::SHORT),
        ("SXF_NOT_SXF", refusals::NOT_SXF),
        ("SXF_EDITION", refusals::EDITION),
        ("SXF_SUM", refusals::SUM),
        ("SXF_TEXT", refusals::TEXT),
        ("SXF_RESERVED", refusals::RESERVED),
        ("SXF_TOO_NEW", refusals::TOO_NEW),
        ("SXF_NOT_CARRIED", refusals::NOT_CARRIED),
        ("SXF_LENGTH", refusals::LENGTH),
        ("SXF_COUNT", refusals::COUNT),
        ("SXF_SEMANTIC", refusals::SEMANTIC),
        ("SXF_LEFT_OVER", refusals::LEFT_OVER),
        ("SXF_TABLE", refusals::TABLE),
        ("SXF_ROOM", refusals::ROOM),
        ("SXF_ASK", refusals::ASK),
        ("SXF_NO_CHARACTER", refusals::NO_CHARACTER),
        ("SXF_BAD_BLOCK", refusals::BAD_BLOCK),
        ("SXF_DATE_AT", passport::DATE.place as u64),
        ("SXF_DESIGNATION_AT", passport::DESIGNATION.place as u64),
        ("SXF_TITLE_AT", passport::TITLE.place as u64),
        ("SXF_REST_AT", passport::REST.place as u64),
        ("SXF_FRAME_AT", passport::FRAME.place as u64),
        ("SXF_DESIGNATION2_AT", descriptor::DESIGNATION.place as u64),
        ("SXF_CARRIED_AT", descriptor::CARRIED.place as u64),
        ("SXF_RECORDS_AT", START as u64),
        ("SXF_DATE_SIZE", passport::DATE.width as u64),
        ("SXF_TEXT_SIZE", passport::TITLE.width as u64),
        ("SXF_REST_SIZE", passport::REST.width as u64),
        ("SXF_CARRIED_SIZE", descriptor::CARRIED.width as u64),
        ("SXF_LIMIT", LIMIT as u64),
        ("SXF_ROW_CODE", row::CODE as u64),
        ("SXF_ROW_IN_GROUP", row::IN_GROUP as u64),
        ("SXF_ROW_GROUP", row::GROUP as u64),
        ("SXF_ROW_REFERENCE", row::REFERENCE as u64),
        ("SXF_ROW_GENERALISATION", row::GENERALISATION as u64),
        ("SXF_ROW_WORD", row::WORD as u64),
        ("SXF_ROW_PARTS", row::PARTS as u64),
        ("SXF_ROW_ITEMS", row::ITEMS as u64),
        ("SXF_ROW_MARK", row::MARK as u64),
        ("SXF_ROW_WIDTH", row::ROW_WIDTH as u64),
        ("SXF_PART_POINTS", row::POINTS as u64),
        ("SXF_PART_TEXT_LENGTH", row::TEXT_LENGTH as u64),
        ("SXF_PART_WIDTH", row::PART_WIDTH as u64),
        ("SXF_ITEM_CODE", row::ITEM_CODE as u64),
        ("SXF_ITEM_TYPE", row::ITEM_TYPE as u64),
        ("SXF_ITEM_SCALE", row::ITEM_SCALE as u64),
        ("SXF_ITEM_LENGTH", row::ITEM_LENGTH as u64),
        ("SXF_ITEM_WIDTH", row::ITEM_WIDTH as u64),
        ("SXF_DEVICE_POINTS", units::DEVICE_POINTS),
        ("SXF_METRES", units::METRES),
        ("SXF_RADIANS", units::RADIANS),
        ("SXF_DEGREES", units::DEGREES),
        ("SXF_UNKNOWN_UNIT", units::UNKNOWN_UNIT),
        ("SXF_NORTH", dimensions::NORTH.into()),
        ("SXF_EAST", dimensions::EAST.into()),
        ("SXF_HEIGHT", dimensions::HEIGHT.into()),
        ("SXF_NO_NUMBER", kinds::NO_NUMBER),
        ("SXF_WHOLE", kinds::WHOLE),
        ("SXF_SINGLE", kinds::SINGLE),
        ("SXF_DOUBLE", kinds::DOUBLE),
        ("SXF_NAN", kinds::NAN),
        ("SXF_DECIMAL", kinds::DECIMAL),
        ("SXF_DOS", codings::DOS.into()),
        ("SXF_WINDOWS", codings::WINDOWS.into()),
        ("SXF_KOI8", codings::KOI8.into()),
        ("SXF_BLOCK_SIZE", index::BLOCK_SIZE as u64),
        ("SXF_BLOCK_FULL", index::BLOCK_FULL as u64),
        ("SXF_ENTRY_CODE", index::ENTRY_CODE as u64),
        ("SXF_ENTRY_PLACE", index::ENTRY_PLACE as u64),
        ("SXF_ENTRY_LOCALISATION", index::ENTRY_LOCALISATION as u64),
        ("SXF_ENTRY_WIDTH", index::ENTRY_WIDTH as u64),
        ("SXF_PICK_RECORD", index::PICK_RECORD as u64),
        ("SXF_PICK_PLACE", index::PICK_PLACE as u64),
        ("SXF_PICK_LOCALISATION", index::PICK_LOCALISATION as u64),
        ("SXF_PICK_WIDTH", index::PICK_WIDTH as u64),
    ];
    assert_eq!(numbers(&without_comments(HEADER)), ours.map(|(name, number)| (name.to_string(), number)));
}

#[test]
fn version_is_the_headers_and_the_archives() {
    assert_eq!(lent::version(), VERSION);
    let defined: Vec<&str> = HEADER.lines().filter_map(|line| line.strip_prefix("#define SXF_VERSION ")).collect();
    assert_eq!(defined, [VERSION.to_string()]);
}

/// The name that a struct of the header has here: `Checked` for `sxf_checked`.
fn struct_name(c: &str) -> String {
    let name = c.trim().strip_prefix("sxf_").expect("a name of the header");
    format!("{}{}", name[..1].to_uppercase(), &name[1..])
}

fn number_type(c: &str) -> &str {
    match c {
        "uint8_t" => "u8",
        "uint16_t" => "u16",
        "uint32_t" => "u32",
        "uint64_t" => "u64",
        "int64_t" => "i64",
        "size_t" => "usize",
        other => panic!("a type that no call has yet: {other}"),
    }
}

/// A parameter as Rust declares it: `sheet:*constu8` for `const uint8_t *sheet`. Only `rest` and `carried` have a length of their own.
fn parameter(c: &str) -> String {
    let words: Vec<&str> = c.split_whitespace().collect();
    match words[..] {
        ["const", "uint8_t", array] if array.ends_with(']') => {
            let (name, length) = array.trim_end_matches(']').split_once('[').expect("a length");
            let (of, width) = if name == "rest" { ("Rest", size_of::<Rest>()) } else { ("Carried", size_of::<Carried>()) };
            assert_eq!(length.parse(), Ok(width), "{c}");
            format!("{name}:*const{of}")
        }
        ["const", of, pointer] => format!("{}:*const{}", pointer.trim_start_matches('*'), number_type(of)),
        [of, pointer] if pointer.starts_with('*') => format!("{}:*mut{}", &pointer[1..], number_type(of)),
        [of, name] => format!("{name}:{}", number_type(of)),
        _ => panic!("no parameter: {c}"),
    }
}

/// Each struct of the header as Rust declares it, without spaces.
fn structs(header: &str) -> Vec<String> {
    let fields = |declared: &str| {
        let (of, names) = declared.trim().split_once(' ').expect("a type and names");
        names.split(',').map(|name| format!("pub{}:{}", name.trim(), number_type(of))).collect::<Vec<_>>().join(",")
    };
    let declared = |piece: &&str| {
        let (body, rest) = piece.split_once('}').expect("the end of the struct");
        let fields: Vec<String> = body.split(';').filter(|line| !line.trim().is_empty()).map(fields).collect();
        format!("pubstruct{}{{{}}}", struct_name(rest), fields.join(","))
    };
    between(header, "typedef struct {", ";\n\n").iter().map(declared).collect()
}

/// What a call answers: a struct, or a number by itself.
fn answer_type(c: &str) -> String {
    if c.starts_with("sxf_") {
        struct_name(c)
    } else {
        number_type(c).to_string()
    }
}

/// Each call of the header as Rust declares it, without spaces.
fn calls(header: &str) -> Vec<String> {
    let call = |statement: &str| {
        let (answer, call) = statement.trim().split_once(' ')?;
        let (name, parameters) = call.strip_suffix(')')?.split_once('(')?;
        let parameters: Vec<String> = parameters.split(',').filter(|&c| c != "void").map(parameter).collect();
        name.starts_with("sxf_").then(|| format!("pubfn{name}({})->{};", parameters.join(","), answer_type(answer)))
    };
    header.split(';').filter(|statement| !statement.trim().starts_with('#')).filter_map(call).collect()
}

/// The declarations of this crate without comments, attributes, spaces and last commas.
fn declared() -> String {
    let is_code = |line: &&str| !line.trim_start().starts_with("//") && !line.trim_start().starts_with("#[");
    let code: String = CALLS.lines().filter(is_code).flat_map(str::split_whitespace).collect();
    code.replace(",)", ")").replace(",}", "}")
}

#[test]
fn structs_and_calls_are_the_headers() {
    let (header, declared) = (without_comments(HEADER), declared());
    let (structs, calls) = (structs(&header), calls(&header));
    for each in structs.iter().chain(&calls) {
        assert!(declared.contains(each), "not declared so: {each}");
    }
    assert_eq!((structs.len(), declared.matches("pubstruct").count()), (11, 11));
    assert_eq!((calls.len(), declared.matches("pubfn").count()), (20, 20));
}
