//! Tables of settings, good and damaged, and names to look up in them.

use std::collections::BTreeSet;

use oracle::table::{CONTENT, NAME, RECORD};

use super::names::{macro_name, pcd_name, NUMBERS, TEXTS, WIDES};
use super::neighbours;
use super::searches::{LARGE, SMALL};
use crate::prng::Prng;

const KIND_AT: usize = 64;
const LENGTH_AT: usize = 65;

/// A record with its fields in their places.
pub fn record(name: &[u8], kind: u8, content: &[u8]) -> [u8; RECORD] {
    let mut record = [0; RECORD];
    record[..name.len()].copy_from_slice(name);
    record[KIND_AT] = kind;
    record[LENGTH_AT] = content.len() as u8;
    record[CONTENT..CONTENT + content.len()].copy_from_slice(content);
    record
}

/// A well formed table of 0 to 20 records, or now and then a large one. The
/// sizes of the fixed searches come more often than others.
pub fn valid(rng: &mut Prng) -> Vec<u8> {
    let count = match rng.below(60) {
        0 => rng.between(500, 512),
        1 => rng.between(21, 499),
        2 => rng.pick(&LARGE),
        3..=5 => 0,
        6..=8 => 1,
        9..=20 => rng.pick(&SMALL),
        _ => rng.below(21),
    };
    let mut names = BTreeSet::new();
    while names.len() < count {
        names.insert(name(rng));
    }
    names
        .iter()
        .flat_map(|name| any_record(rng, name))
        .collect()
}

fn name(rng: &mut Prng) -> Vec<u8> {
    // Short names are made of few letters and the longest differ only near
    // their end, so that many have a common beginning.
    let short = rng.between(3, 6);
    let any = rng.between(3, NAME);
    match rng.below(9) {
        0 => rng.pick(&NUMBERS).as_bytes().to_vec(),
        1 => rng.pick(&TEXTS).as_bytes().to_vec(),
        2 => rng.pick(&WIDES).as_bytes().to_vec(),
        3 => macro_name(rng, short - 2),
        4 => pcd_name(rng, short),
        5 => macro_name(rng, any),
        6 => pcd_name(rng, any),
        7 => pcd_name(rng, NAME),
        _ => {
            let mut name = b"A".repeat(rng.between(59, NAME - 2));
            name.extend([rng.pick(b"AB0_"), rng.pick(b"AB0_")]);
            name
        }
    }
}

fn any_record(rng: &mut Prng, name: &[u8]) -> [u8; RECORD] {
    let among = |names: &[&str]| names.iter().any(|known| known.as_bytes() == name);
    let any = rng.below(3) as u8;
    let kind = match rng.below(10) {
        0 => any,
        _ if among(&NUMBERS) => 0,
        _ if among(&TEXTS) => 1,
        _ if among(&WIDES) => 2,
        _ => any,
    };
    if kind == 0 {
        let any = rng.next();
        let number = rng.pick(&[0, 1, 2, u64::MAX, any, any >> 32]);
        return record(name, 0, &number.to_le_bytes());
    }
    let len = match rng.below(4) {
        0 => rng.pick(&[0, 1, 55, 56]),
        1 => rng.below(57),
        _ => rng.below(5),
    };
    // Any byte may be in a string, zero bytes at its end too.
    let content: Vec<u8> = (0..len)
        .map(|_| match rng.below(3) {
            0 => rng.byte(),
            _ => rng.pick(b"abc\0\r\n\"'"),
        })
        .collect();
    record(name, kind, &content)
}

/// Names that are no macro and no PCD name, to put into a record.
#[rustfmt::skip]
const BAD_NAMES: &[&[u8]] = &[
    b"", b"a", b"_", b"_A", b"1", b"1A", b"9.a", b"Aa", b"aA", b"A-", b"A B", b" A", b"A ", b"A.",
    b".A", b".", b"a.1", b"1.a", b"a..b", b"a.b.c", b"a.b.", b"$(A)", b"A$", b"A\x80", b"\xc9",
    b"a.\xe9", b"A\0B", b"\0A", b"a\0.b", b"a.b\0c",
];

/// A table and what was done to it.
pub type Damaged = (&'static str, Vec<u8>);

/// The table with each kind of damage, in a place chosen at random. A few of
/// these may still be well formed; the oracle says which.
pub fn damaged(rng: &mut Prng, table: &[u8]) -> Vec<Damaged> {
    let mut all = Vec::new();
    damage_length(rng, table, &mut all);
    if !table.is_empty() {
        damage_record(rng, table, &mut all);
        damage_order(rng, table, &mut all);
    }
    all
}

fn damage_length(rng: &mut Prng, table: &[u8], all: &mut Vec<Damaged>) {
    let mut longer = table.to_vec();
    longer.extend((0..rng.between(1, 127)).map(|_| rng.pick(b"\0\0A")));
    all.push(("bytes after the last record", longer));

    // Its name comes after all the others, so only the number can be wrong.
    let last = [&b"z".repeat(NAME - 2)[..], b".z"].concat();
    let more = [table, &record(&last, 1, b"x")].concat();
    all.push(("one more record", more));

    if !table.is_empty() {
        let end = rng.below(table.len());
        all.push(("cut", table[..end].to_vec()));
        all.push(("cut by one", table[..table.len() - 1].to_vec()));
        let start = rng.between(1, table.len());
        all.push(("cut at the front", table[start..].to_vec()));
    }
}

fn damage_record(rng: &mut Prng, table: &[u8], all: &mut Vec<Damaged>) {
    let mut change = |what: &'static str, change: fn(&mut Prng, &mut [u8])| {
        let mut copy = table.to_vec();
        let at = rng.below(table.len() / RECORD) * RECORD;
        change(rng, &mut copy[at..at + RECORD]);
        all.push((what, copy));
    };
    change("bytes 66 to 71", |rng, record| {
        record[rng.between(66, 71)] = rng.pick(&[1, 0x80, 0xff]);
    });
    change("kind", |rng, record| {
        record[KIND_AT] = match rng.below(3) {
            0 => rng.below(3) as u8,
            _ => rng.between(3, 255) as u8,
        };
    });
    change("length", |rng, record| {
        let any = rng.byte();
        record[LENGTH_AT] = rng.pick(&[0, 7, 8, 9, 55, 56, 57, 58, 128, 255, any]);
    });
    change("length off by one", |rng, record| {
        record[LENGTH_AT] = record[LENGTH_AT].wrapping_add(rng.pick(&[1, 255]));
    });
    change("content of 57 bytes", |rng, record| {
        record[KIND_AT] = rng.pick(&[1, 2]);
        record[LENGTH_AT] = 57;
        record[CONTENT..].fill(b'x');
    });
    change("byte past the content", |rng, record| {
        let end = (CONTENT + usize::from(record[LENGTH_AT])).min(RECORD - 1);
        let any = rng.between(end, RECORD - 1);
        let place = rng.pick(&[end, RECORD - 1, any]);
        record[place] ^= rng.pick(&[1, 0x80]);
    });
    change("byte past the name", |rng, record| {
        let end = name_in(record).len().min(NAME - 1);
        let any = rng.between(end, NAME - 1);
        let place = rng.pick(&[end, NAME - 1, any]);
        record[place] = rng.pick(b"A_.0a\x01\xff");
    });
    change("name", |rng, record| {
        let name = rng.pick(BAD_NAMES);
        record[..NAME].fill(0);
        record[..name.len()].copy_from_slice(name);
    });
    change("byte of the name", |rng, record| {
        let place = rng.below(name_in(record).len());
        record[place] = match rng.below(2) {
            0 => rng.byte(),
            _ => rng.pick(b"\0 .a_0A[`{@/:"),
        };
    });
    change("any byte", |rng, record| {
        record[rng.below(RECORD)] = rng.byte();
    });
}

fn damage_order(rng: &mut Prng, table: &[u8], all: &mut Vec<Damaged>) {
    let (records, _) = table.as_chunks::<RECORD>();
    let one = rng.below(records.len());
    let other = match rng.below(2) {
        0 => (one + 1) % records.len(),
        _ => rng.below(records.len()),
    };
    let mut change = |what: &'static str, change: &dyn Fn(&mut Vec<[u8; RECORD]>)| {
        let mut copy = records.to_vec();
        change(&mut copy);
        all.push((what, copy.concat()));
    };
    change("two records swapped", &|records| records.swap(one, other));
    change("a record twice", &|records| {
        records.insert(one, records[one]);
    });
    change("a name twice", &|records| {
        records.insert(one, record(name_in(&records[one]), 2, b"other"));
    });
    change("a record in place of another", &|records| {
        records[one] = records[other];
    });
    change("a name in place of another", &|records| {
        let name = records[other];
        records[one][..NAME].copy_from_slice(&name[..NAME]);
    });
    change("backwards", &|records| records.reverse());
}

/// The name in a record, without its padding.
pub fn name_in(record: &[u8]) -> &[u8] {
    let end = record[..NAME].iter().position(|&byte| byte == 0);
    &record[..end.unwrap_or(NAME)]
}

/// Names to look up, the first three of them in the table if it has any.
pub fn lookups(rng: &mut Prng, table: &[u8]) -> Vec<Vec<u8>> {
    let (records, _) = table.as_chunks::<RECORD>();
    let mut names: Vec<Vec<u8>> = match records {
        [] => (0..3).map(|_| name(rng)).collect(),
        [first, ..] => [first, &records[records.len() - 1], &rng.pick(records)]
            .map(|record| name_in(record).to_vec())
            .to_vec(),
    };
    let present = names[rng.below(3)].clone();
    let mut padded = present.clone();
    padded.resize(NAME, 0);
    let mut other = present.clone();
    let at = rng.below(other.len());
    other[at] = rng.byte();
    let long = rng.between(61, 66);

    names.push(Vec::new());
    names.push(name(rng));
    names.push(macro_name(rng, long));
    names.push(present[..rng.below(present.len())].to_vec());
    names.push([&present[..], &[rng.pick(b"A0_.a")]].concat());
    names.push([&present[..], &b"A".repeat(rng.between(60, 300))].concat());
    names.push([&present[..], b"\0"].concat());
    names.push([&present[..], b"\0A"].concat());
    names.push([b"\0", &present[..]].concat());
    names.push([&padded[..], &[rng.pick(b"\0A")]].concat());
    names.push(padded);
    names.push(other);
    names.push(present.to_ascii_lowercase());
    names.push(b"\0".repeat(rng.between(1, 65)));
    names.push((0..rng.below(70)).map(|_| rng.byte()).collect());
    for _ in 0..2 {
        let centre = match records {
            [] => name(rng),
            _ => name_in(&rng.pick(records)).to_vec(),
        };
        beside(rng, &centre, &mut names);
    }
    names
}

/// A name, the closest ones on both sides, and one of each other kind of neighbour.
fn beside(rng: &mut Prng, centre: &[u8], names: &mut Vec<Vec<u8>>) {
    names.push(centre.to_vec());
    names.extend(neighbours::closest(centre));
    let mut kinds = vec![
        neighbours::near(centre),
        neighbours::with_zeros(centre),
        neighbours::prolonged(centre),
    ];
    if rng.one_in(100) {
        kinds.push(neighbours::very_long(centre));
    }
    for mut kind in kinds {
        names.push(kind.swap_remove(rng.below(kind.len())));
    }
}

/// Tables right at the limits, most of them of a single record.
pub fn corners() -> Vec<Vec<u8>> {
    let mut tables: Vec<Vec<u8>> = Vec::new();
    for len in (0..=260).chain([65_535, 65_536, 65_537, 65_664]) {
        tables.push(vec![0; len]);
    }
    // Every kind with every length, its content empty, full or over-full.
    for kind in 0..=255 {
        for len in 0..=255 {
            for filled in [0, usize::from(len), usize::from(len) + 1] {
                let mut record = record(b"A", kind, b"");
                record[LENGTH_AT] = len;
                record[CONTENT..(CONTENT + filled).min(RECORD)].fill(b'x');
                tables.push(record.to_vec());
            }
        }
    }
    // Every byte at every place of a record of each kind.
    for good in [
        record(b"A", 0, &7u64.to_le_bytes()),
        record(b"a.b", 1, b"xyz"),
        record(&b"B".repeat(NAME), 2, &b"w".repeat(56)),
    ] {
        for place in 0..RECORD {
            for byte in 0..=255 {
                let mut record = good;
                record[place] = byte;
                tables.push(record.to_vec());
            }
        }
    }
    for name in BAD_NAMES {
        tables.push(record(name, 1, b"").to_vec());
    }
    // Two records whose names differ in one place or in length, both ways.
    let long = record(&b"A".repeat(NAME), 1, b"");
    for place in 1..NAME {
        let mut other = long;
        other[place] = b'B';
        let short = record(&b"A".repeat(place), 1, b"");
        for pair in [[long, other], [other, long], [long, short], [short, long]] {
            tables.push(pair.concat());
        }
    }
    for count in 510..=514 {
        let many: Vec<[u8; RECORD]> = (0..count)
            .map(|index| record(format!("B{index:04}").as_bytes(), 1, b"x"))
            .collect();
        tables.push(many.concat());
        // Wrong only in the last record, or in the last two names.
        let mut wrong = many.clone();
        wrong[count - 1][RECORD - 1] = 1;
        tables.push(wrong.concat());
        let mut wrong = many;
        wrong.swap(count - 2, count - 1);
        tables.push(wrong.concat());
    }
    tables
}
