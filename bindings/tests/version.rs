//! One version: the header's. This package and the command have the same.

const HEADER: &str = include_str!("../../include/korzhinay.h");
const COMMAND: &str = include_str!("../../cli/Cargo.toml");

/// The rest of the one line of a text that starts so.
fn after<'a>(text: &'a str, start: &str) -> &'a str {
    let mut found = text.lines().filter_map(|line| line.strip_prefix(start));
    let rest = found.next().expect(start);
    assert_eq!(found.next(), None, "{start}");
    rest
}

fn version() -> &'static str {
    after(HEADER, "#define KORZHINAY_VERSION ").trim_matches('"')
}

#[test]
fn the_header_has_its_parts() {
    let part = |name| after(HEADER, &format!("#define KORZHINAY_VERSION_{name} "));
    let parts = ["MAJOR", "MINOR", "PATCH"].map(part);
    assert_eq!(version(), parts.join("."));
}

#[test]
fn packages_agree() {
    assert_eq!(env!("CARGO_PKG_VERSION"), version());
    assert_eq!(after(COMMAND, "version = ").trim_matches('"'), version());
}
