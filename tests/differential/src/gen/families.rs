//! Families of names, each hard for a search in another way.

use std::collections::BTreeSet;

use oracle::bytes::is_name;
use oracle::table::NAME;

/// The bytes with which a macro name goes on, ascending.
const BYTES: &[u8; 37] = b"0123456789ABCDEFGHIJKLMNOPQRSTUVWXYZ_";

/// Names, ascending.
pub struct Family {
    pub what: String,
    pub names: Vec<Vec<u8>>,
    /// If given, large tables are searched only for the names at every third
    /// place from this one on, which saves time.
    pub third: Option<usize>,
}

impl Family {
    fn new(what: impl Into<String>, names: Vec<Vec<u8>>) -> Family {
        let names: BTreeSet<Vec<u8>> = names.into_iter().collect();
        Family {
            what: what.into(),
            names: names.into_iter().collect(),
            third: None,
        }
    }

    /// So many of the names, from all parts of the family.
    pub fn spread(&self, size: usize) -> Vec<Vec<u8>> {
        let count = self.names.len();
        (0..size)
            .map(|index| self.names[index * count / size].clone())
            .collect()
    }
}

pub fn all() -> Vec<Family> {
    let mut families = vec![
        Family::new("that differ in the first byte", first_bytes()),
        Family::new("whose bytes descend after the first", descending()),
        Family::new("of one and two bytes", short()),
        Family::new("of one letter again and again", repeated()),
        Family::new("with a dot", dotted()),
        Family::new("that share 63 bytes", shared(63)),
        Family::new("of 64 bytes that share 62 bytes", shared_and_full(62)),
    ];
    for len in [7, 8, 9, 15, 16, 17] {
        for (what, names) in [("", shared(len)), ("of 64 bytes ", shared_and_full(len))] {
            let mut family = Family::new(format!("{what}that share {len} bytes"), names);
            // So each place is looked at for two of the six lengths.
            family.third = Some(len % 3);
            families.push(family);
        }
    }
    families
}

fn first_bytes() -> Vec<Vec<u8>> {
    let bytes = (b'A'..=b'z').filter(|byte| byte.is_ascii_alphabetic() || *byte == b'_');
    bytes.map(|byte| vec![byte, b'.', b'a']).collect()
}

/// A comparison that begins at the end has these the other way round.
fn descending() -> Vec<Vec<u8>> {
    let bytes = (b'A'..=b'Z').zip((b'A'..=b'Z').rev());
    bytes
        .map(|(first, other)| [&[first], &[other; NAME - 1][..]].concat())
        .collect()
}

fn short() -> Vec<Vec<u8>> {
    let mut names = Vec::new();
    for first in b'A'..=b'Z' {
        names.push(vec![first]);
        names.extend(BYTES.map(|second| vec![first, second]));
    }
    names
}

/// Each of eight letters 1 to 64 times: a name is the beginning of the next.
fn repeated() -> Vec<Vec<u8>> {
    (b'A'..=b'H')
        .flat_map(|byte| (1..=NAME).map(move |len| vec![byte; len]))
        .collect()
}

/// A dot comes before the other bytes of a name, but after its end.
fn dotted() -> Vec<Vec<u8>> {
    let mut parts = Vec::new();
    for first in b"AZ_az" {
        for rest in [&b""[..], b"0", b"_", b"ZZZZZ", b"zzzzzz", b"zzzzzzz"] {
            parts.push([&[*first], rest].concat());
        }
    }
    let mut names = Vec::new();
    for space in &parts {
        names.extend(parts.iter().map(|part| [space, &b"."[..], part].concat()));
    }
    // Some are macro names, without a dot.
    names.extend(parts.into_iter().filter(|part| is_name(part)));
    names
}

/// The shared bytes alone, and with one and two more where there is room for them.
fn shared(len: usize) -> Vec<Vec<u8>> {
    let start = beginning(len);
    let mut names = vec![start.clone()];
    for first in BYTES {
        names.push([&start[..], &[*first]].concat());
        names.extend(BYTES.map(|second| [&start[..], &[*first, second]].concat()));
    }
    names.retain(|name| name.len() <= NAME);
    names
}

/// After the shared bytes two ascend from name to name, and all others descend.
fn shared_and_full(len: usize) -> Vec<Vec<u8>> {
    let start = beginning(len);
    let mut names = Vec::new();
    for (first, other) in BYTES.iter().zip(BYTES.iter().rev()) {
        for (second, another) in BYTES.iter().zip(BYTES.iter().rev()) {
            let mut name = [&start[..], &[*first, *second]].concat();
            name.extend([*other, *another].iter().cycle().take(NAME - name.len()));
            names.push(name);
        }
    }
    names
}

fn beginning(len: usize) -> Vec<u8> {
    (b'A'..=b'Z').cycle().take(len).collect()
}
