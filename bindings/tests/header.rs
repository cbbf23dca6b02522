//! The declarations of this package agree with include/korzhinay.h: codes, refusals and limits by name and number, functions by name,
//! parameters and result. Refusals agree with the proved code too.

use std::collections::BTreeMap;

const HEADER: &str = include_str!("../../include/korzhinay.h");
const RAW: &str = include_str!("../src/raw.rs");
const REFUSAL: &str = include_str!("../src/refusal.rs");
const EDITION: &str = include_str!("../src/edition.rs");
const LIMIT: &str = include_str!("../src/limit.rs");
/// Where the proved code has the numbers of refusals.
const UNITS: &str = include_str!("../../crates/units/src/lib.rt");

/// The members of an enum of the header, without their prefix.
fn members(name: &str, prefix: &str) -> BTreeMap<String, String> {
    let start = format!("enum korzhinay_{name} {{");
    let (_, rest) = HEADER.split_once(&start).expect("the enum");
    let (body, _) = rest.split_once("};").expect("the end of the enum");
    let member = |line: &str| {
        let (name, rest) = line.trim().strip_prefix(prefix)?.split_once(" = ")?;
        let digits = rest.split(|c: char| !c.is_ascii_digit()).next()?;
        Some((name.to_string(), digits.to_string()))
    };
    body.lines().filter_map(member).collect()
}

/// The constants of a source file.
fn constants(source: &str) -> BTreeMap<String, String> {
    let constant = |line: &str| {
        let (name, rest) = line.strip_prefix("pub const ")?.split_once(':')?;
        let (_, number) = rest.split_once(" = ")?;
        let digits = number.trim_end_matches(';').replace('_', "");
        Some((name.to_string(), digits))
    };
    source.lines().filter_map(constant).collect()
}

/// The macros of the header that are numbers, without their prefix and those of the version.
fn limits_of_header() -> BTreeMap<String, String> {
    let limit = |line: &str| {
        let mut words = line.strip_prefix("#define KORZHINAY_")?.split_whitespace();
        let (name, number) = (words.next()?, words.next()?);
        let is_limit = number.parse::<usize>().is_ok() && !name.starts_with("VERSION_");
        is_limit.then(|| (name.to_string(), number.to_string()))
    };
    HEADER.lines().filter_map(limit).collect()
}

#[test]
fn codes_agree() {
    for (name, prefix, source) in [
        ("code", "KORZHINAY_", include_str!("../src/token.rs")),
        ("kind", "KORZHINAY_KIND_", include_str!("../src/kind.rs")),
        ("memory", "KORZHINAY_IN_", include_str!("../src/memory.rs")),
        ("datum", "KORZHINAY_DATUM_", include_str!("../src/datum.rs")),
        ("dialect", "KORZHINAY_EDITION_", EDITION),
        ("mark", "KORZHINAY_MARK_", include_str!("../src/mark.rs")),
        ("refusal", "KORZHINAY_REFUSAL_", REFUSAL),
    ] {
        let declared = constants(source);
        assert!(!declared.is_empty(), "{name}");
        assert_eq!(declared, members(name, prefix), "{name}");
    }
}

/// The reasons of the proved code with their numbers, by the names that the header has: `TableMalformed = 1` is `TABLE_MALFORMED`.
fn reasons(source: &str) -> BTreeMap<String, String> {
    let (_, rest) = source.split_once("pub enum Reason {").expect("the enum");
    let (body, _) = rest.split_once("\n}").expect("the end of the enum");
    let reason = |line: &str| {
        let variant = line
            .trim()
            .strip_suffix(',')
            .filter(|line| !line.starts_with("//"))?;
        let (name, number) = variant.split_once(" = ").expect("the number of a reason");
        let mut words = String::new();
        for (i, letter) in name.chars().enumerate() {
            if letter.is_uppercase() && i > 0 {
                words.push('_');
            }
            words.push(letter.to_ascii_uppercase());
        }
        Some((words, number.to_string()))
    };
    body.lines().filter_map(reason).collect()
}

#[test]
fn refusals_are_those_of_the_proved_code() {
    let mut proved = reasons(UNITS);
    // the refusal of a piece of a file; no exported call takes pieces
    assert_eq!(proved.remove("PIECE_MALFORMED").as_deref(), Some("35"));
    assert_eq!(constants(REFUSAL), proved);
}

#[test]
fn limits_agree() {
    let declared = constants(LIMIT);
    assert!(!declared.is_empty());
    assert_eq!(declared, limits_of_header());
}

/// A parameter or a result of C as Rust writes it; an array is a pointer.
fn in_rust(parameter: &str) -> String {
    let (kind, name) = parameter.rsplit_once([' ', '*']).expect("a type");
    let (name, is_array) = match name.split_once('[') {
        Some((name, _)) => (name, true),
        None => (name, false),
    };
    let element = kind
        .trim_start_matches("const ")
        .trim_end_matches([' ', '*']);
    let element = match element {
        "uint8_t" => "u8",
        "uint16_t" => "u16",
        "uint64_t" => "u64",
        "size_t" => "usize",
        other => panic!("{other}"),
    };
    match (
        parameter.starts_with("const "),
        is_array || parameter.contains('*'),
    ) {
        (true, true) => format!("{name}: *const {element}"),
        (false, true) => format!("{name}: *mut {element}"),
        _ => format!("{name}: {element}"),
    }
}

/// The functions of the header, as Rust writes them on one line.
fn functions_of_header() -> Vec<String> {
    HEADER
        .split(";\n")
        .filter_map(|piece| {
            let piece = &piece[piece.rfind("*/").map_or(0, |end| end + 2)..];
            let (start, parameters) = piece.trim().split_once('(')?;
            let (result, name) = start.split_once(' ')?;
            let parameters = parameters.strip_suffix(')')?;
            let parameters: Vec<String> =
                parameters.split(',').map(|p| in_rust(p.trim())).collect();
            let result = match result {
                "void" => "",
                "uint8_t" => " -> u8",
                other => panic!("{other}"),
            };
            Some(format!("{name}({}){result}", parameters.join(", ")))
        })
        .collect()
}

/// The functions of `raw`, on one line each.
fn functions_of_raw() -> Vec<String> {
    RAW.split("pub fn ")
        .skip(1)
        .map(|piece| {
            let (function, _) = piece.split_once(';').expect("the end of a function");
            let words: Vec<&str> = function.split_whitespace().collect();
            words
                .join(" ")
                .replace("( ", "(")
                .replace(", )", ")")
                .replace(",)", ")")
        })
        .collect()
}

#[test]
fn functions_agree() {
    let declared = functions_of_raw();
    assert_eq!(declared.len(), 6);
    assert_eq!(declared, functions_of_header());
}
