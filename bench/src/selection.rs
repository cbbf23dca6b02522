//! Times the selection of the lines of a file, and of one half as long: the cost has to be in proportion. Each side has
//! marks of its own, which every call overwrites; they are not cleared between calls.

use std::hint::black_box;
use std::time::Duration;

use bindings::limit::{MAX_LINES, RECORD_BYTES};

use crate::edition::{DIALECT, EDITION};
use crate::files;
use crate::settings;
use crate::timing::{compare, ratio};

pub fn time() {
    let [whole, half] = files::both().map(|file| time_one(&file, &first(files::SET)));
    println!(
        "{:<62} proved {:>9.2}, oracle {:>12.2}",
        "the whole file's time by the half's",
        ratio(whole.0, half.0),
        ratio(whole.1, half.1)
    );
    let [file, _] = files::both();
    time_one(&file, &first(8));
    time_one(&file, &settings::spread(files::SET));
}

/// The first records of the table.
fn first(set: usize) -> Vec<u8> {
    settings::table()[..set * RECORD_BYTES].to_vec()
}

/// The selection of the larger file over this many settings, once.
pub fn once(set: usize) {
    let [file, _] = files::both();
    select(&file, &first(set));
}

/// The selection of the larger file over ten times as many settings as it uses, once.
pub fn once_spread() {
    let [file, _] = files::both();
    select(&file, &settings::spread(files::SET));
}

/// The selection of the smaller file, once.
pub fn once_half() {
    let [_, file] = files::both();
    select(&file, &first(files::SET));
}

/// The selection of the file whose first branches are all taken, once.
pub fn once_calm() {
    select(&files::calm(), &first(files::SET));
}

fn select(file: &str, table: &[u8]) {
    let mut marks = vec![0; MAX_LINES];
    let outcome = proved(file.as_bytes(), table, &mut marks);
    assert_eq!(black_box(outcome).0, 0);
}

fn time_one(file: &str, table: &[u8]) -> (Duration, Duration) {
    let set = table.len() / RECORD_BYTES;
    let what = &format!("selection: {}", files::described(file, set));
    let file = file.as_bytes();
    let (mut marks, mut others) = (vec![0; MAX_LINES], vec![0; MAX_LINES]);
    check(file, table, &mut marks, &mut others);
    compare(
        what,
        1,
        || {
            black_box(proved(file, table, &mut marks));
        },
        || {
            let _ = black_box(oracle::select(file, table, EDITION, &mut others));
        },
    )
}

fn proved(file: &[u8], table: &[u8], marks: &mut [u8]) -> (u8, [u64; 4]) {
    let mut out = [0; 4];
    let refusal = bindings::select(marks, file, table, DIALECT, &mut out);
    (refusal, out)
}

/// Checks that the file is accepted, with the same marks and count on both sides.
fn check(file: &[u8], table: &[u8], marks: &mut [u8], others: &mut [u8]) {
    let (refusal, [_, lines, count, _]) = proved(file, table, marks);
    let other = oracle::select(file, table, EDITION, others);
    assert!(refusal == 0 && other == Ok((lines as usize, count)) && marks == others);
}
