//! Files at or just past a limit.

use oracle::selection::{MAX_FILE, MAX_LINE, MAX_LINES};

use super::files::join;
use super::groups::nested;
use super::settings::Names;
use crate::prng::Prng;

pub fn near_a_limit(rng: &mut Prng, names: &Names) -> Vec<u8> {
    match rng.below(6) {
        0 => near_the_size(rng, names),
        1 => near_the_line_count(rng, names),
        2 => many_operators(rng),
        _ => near_the_line_length(rng, names),
    }
}

/// Puts more lines in a place of the file between two others.
fn fill(rng: &mut Prng, lines: &mut Vec<Vec<u8>>, more: Vec<Vec<u8>>) {
    let at = rng.below(lines.len() + 1);
    lines.splice(at..at, more);
}

/// From 2 bytes too few to 2 too many, sometimes in too many lines as well.
fn near_the_size(rng: &mut Prng, names: &Names) -> Vec<u8> {
    let size = rng.between(MAX_FILE - 2, MAX_FILE + 2);
    let mut lines = nested(rng, names);
    lines.truncate(40);
    let width = match rng.below(6) {
        0 => rng.between(1, 17),
        _ => rng.between(17, MAX_LINE),
    };
    let written: usize = lines.iter().map(|line| line.len() + 1).sum();
    let room = size.saturating_sub(written);
    let mut more = vec![b"x".repeat(width - 1); room / width];
    if let Some(rest) = (room % width).checked_sub(1) {
        more.push(b"y".repeat(rest));
    }
    fill(rng, &mut lines, more);
    let mut file = lines.join(&b'\n');
    file.push(b'\n');
    file
}

/// From 2 lines too few to 2 too many.
fn near_the_line_count(rng: &mut Prng, names: &Names) -> Vec<u8> {
    let count = rng.between(MAX_LINES - 2, MAX_LINES + 2);
    let mut lines = nested(rng, names);
    let line: &[u8] = rng.pick(&[&b""[..], b"x", b" ", b"\r"]);
    let more = vec![line.to_vec(); count.saturating_sub(lines.len())];
    fill(rng, &mut lines, more);
    join(rng, &lines)
}

/// One line from 2 bytes too short to 2 too long, with any end.
fn near_the_line_length(rng: &mut Prng, names: &Names) -> Vec<u8> {
    let mut lines = nested(rng, names);
    lines.push(b"x".to_vec());
    let at = rng.below(lines.len());
    let len = rng.between(MAX_LINE - 2, MAX_LINE + 2);
    let line = &mut lines[at];
    match rng.below(4) {
        0 => drop(line.splice(0..0, b" ".repeat(len.saturating_sub(line.len())))),
        1 => line.resize(len, b' '),
        2 => {
            line.extend(b" #");
            line.resize(len, b'c');
        }
        _ => line.resize(len, b'\t'),
    }
    if rng.one_in(3) {
        line.extend(b"\r");
    }
    join(rng, &lines)
}

/// Conditions and DEFINE lines with up to 199 operators each, or conditions with
/// up to 99 bars, so that their sum does not fit a byte, or even two.
fn many_operators(rng: &mut Prng) -> Vec<u8> {
    let groups = match rng.below(4) {
        0 => rng.between(250, 310),
        _ => rng.between(1, 12),
    };
    let lines: Vec<Vec<u8>> = (0..groups)
        .flat_map(|_| {
            let negations = b"!".repeat(rng.between(150, 199));
            let (front, operators, back): (&[u8], _, &[u8]) = match rng.below(4) {
                0 => (b"!if ", b"0|".repeat(rng.between(75, 99)), b"!endif"),
                1 => (b"DEFINE A =", negations, b"x"),
                _ => (b"!if ", negations, b"!endif"),
            };
            [[front, &operators, b"0"].concat(), back.to_vec()]
        })
        .collect();
    lines.join(&b'\n')
}
