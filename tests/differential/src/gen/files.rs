//! Description files, good and bad.

use super::bounds::near_a_limit;
use super::decisions;
use super::definitions;
use super::directives::{condition, name, plain, rubbish, BLANKS, NEARLY_WORDS, WORDS};
use super::groups::{deep, nested};
use super::many_definitions;
use super::refused_definitions;
use super::refused_lines;
use super::settings::Names;
use super::twins::spoil;
use crate::prng::Prng;

/// Any file.
pub fn any(rng: &mut Prng, names: &Names, table: &[u8]) -> Vec<u8> {
    match rng.below(34) {
        0 => random_bytes(rng),
        1..=4 => soup(rng, names),
        5..=9 => {
            let mut lines = nested(rng, names);
            damage(rng, &mut lines);
            join(rng, &lines)
        }
        10 | 11 => {
            let mut file = good(rng, names);
            damage_bytes(rng, &mut file);
            file
        }
        12 => {
            let lines = deep(rng, names);
            join(rng, &lines)
        }
        13 | 14 => near_a_limit(rng, names),
        15..=19 => {
            let file = good(rng, names);
            spoil(rng, &file, table, names.edition())
        }
        20..=23 => {
            let lines = refused_lines::any(rng, names);
            join(rng, &lines)
        }
        24..=27 => {
            let lines = refused_definitions::any(rng, names);
            join(rng, &lines)
        }
        28 => {
            let lines = many_definitions::any(rng, names);
            join(rng, &lines)
        }
        _ => good(rng, names),
    }
}

/// A file that is mostly accepted.
pub fn good(rng: &mut Prng, names: &Names) -> Vec<u8> {
    let lines = match rng.below(60) {
        0 => many_definitions::any(rng, names),
        1..=20 => decisions::any(rng, names),
        _ => nested(rng, names),
    };
    join(rng, &lines)
}

/// How a line can end. Only the first two are the ends of lines.
const ENDS: &[&[u8]] = &[b"\n", b"\r\n", b"\r\r\n", b"\r", b"\n\r"];

/// The lines with ends, all equal or not.
pub fn join(rng: &mut Prng, lines: &[Vec<u8>]) -> Vec<u8> {
    let sort = rng.below(8);
    let mut file = Vec::new();
    for (index, line) in lines.iter().enumerate() {
        file.extend(line);
        let end = match sort {
            0 | 1 => b"\r\n",
            2 => rng.pick(&ENDS[..2]),
            3 if rng.one_in(8) => rng.pick(ENDS),
            _ => ENDS[0],
        };
        let last = index + 1 == lines.len();
        if !last || !rng.one_in(3) {
            file.extend(end);
        }
    }
    file
}

fn random_bytes(rng: &mut Prng) -> Vec<u8> {
    let sort = rng.below(3);
    (0..rng.below(120))
        .map(|_| match sort {
            0 => rng.byte(),
            1 => rng.pick(b"\n\n\r! \tx"),
            _ => rng.pick(b"\n\n\n! \tifdefnelseendif01"),
        })
        .collect()
}

/// Directives and other lines in any order.
fn soup(rng: &mut Prng, names: &Names) -> Vec<u8> {
    let len = match rng.below(12) {
        0 => rng.between(40, 200),
        _ => rng.below(16),
    };
    // Some have good words only, so that they are read further.
    let bad_one_in = rng.pick(&[4, 12, 1_000_000]);
    let mut names = names.clone();
    let lines: Vec<Vec<u8>> = (0..len)
        .map(|_| any_line(rng, &mut names, bad_one_in))
        .collect();
    join(rng, &lines)
}

fn any_line(rng: &mut Prng, names: &mut Names, bad_one_in: usize) -> Vec<u8> {
    match rng.below(8) {
        0 => return plain(rng),
        1 if rng.one_in(bad_one_in) => return definitions::bad(rng, names),
        1 => return definitions::good(rng, names, true),
        _ => {}
    }
    let word = match rng.one_in(bad_one_in) {
        true => rng.pick(NEARLY_WORDS),
        false => rng.pick(WORDS),
    };
    let text = match (word, rng.below(12)) {
        (_, 0) => rubbish(rng),
        ("ifdef" | "ifndef", _) => name(rng, names),
        ("else" | "endif", _) => Vec::new(),
        _ => condition(rng, names),
    };
    [rng.pick(BLANKS), b"!", word.as_bytes(), &text].concat()
}

/// One line is lost, doubled, moved or changed.
fn damage(rng: &mut Prng, lines: &mut Vec<Vec<u8>>) {
    for _ in 0..rng.between(1, 2) {
        if lines.is_empty() {
            return;
        }
        let at = rng.below(lines.len());
        let other = rng.below(lines.len());
        match rng.below(5) {
            0 => drop(lines.remove(at)),
            1 => lines.insert(at, lines[at].clone()),
            2 => lines.swap(at, other),
            3 => {
                let copy = lines[other].clone();
                lines.insert(at, copy);
            }
            _ => super::expressions::damage(rng, &mut lines[at]),
        }
    }
}

/// One byte or line end is changed.
fn damage_bytes(rng: &mut Prng, file: &mut Vec<u8>) {
    for _ in 0..rng.between(1, 3) {
        if file.is_empty() {
            return;
        }
        let at = rng.below(file.len());
        match rng.below(6) {
            0 => file[at] = rng.byte(),
            1 => drop(file.remove(at)),
            2 => file.insert(at, rng.pick(b"\n\r!# x")),
            3 => file.truncate(at),
            _ => {
                let end = file[at..].iter().position(|&byte| byte == b'\n');
                if let Some(end) = end.map(|end| at + end) {
                    let ends: &[&[u8]] = &[b"\r\n", b"\r", b"", b"\n\n", b"\r\r\n", b" ", b"\0"];
                    file.splice(end..=end, rng.pick(ends).iter().copied());
                }
            }
        }
    }
}
