//! Bytes that a description file should not have.

/// Something odd in a file's bytes, at its first byte.
pub struct Oddity {
    pub oddness: Oddness,
    /// Counted from 1.
    pub line: usize,
    /// Counted in bytes from 1.
    pub column: usize,
    /// How many there are.
    pub count: usize,
}

pub enum Oddness {
    ByteOrderMark,
    Utf16,
    Nul,
    /// A CR without an LF after it.
    BareCr,
}

pub const BYTE_ORDER_MARK: &[u8] = b"\xef\xbb\xbf";

/// What is odd in a file. One in UTF-16 is full of NUL bytes and bare CRs, so nothing else is said of it.
pub fn oddities(file: &[u8]) -> Vec<Oddity> {
    let mut found = Vec::new();
    if is_utf16(file) {
        found.extend(oddity(file, Oddness::Utf16, &[0]));
        return found;
    }
    let is_start = |at: usize| at == 0 || file[at - 1] == b'\n';
    let is_mark = |at: &usize| is_start(*at) && file[*at..].starts_with(BYTE_ORDER_MARK);
    let marks: Vec<usize> = places(file, BYTE_ORDER_MARK[0]).filter(is_mark).collect();
    found.extend(oddity(file, Oddness::ByteOrderMark, &marks));
    let nuls: Vec<usize> = places(file, 0).collect();
    found.extend(oddity(file, Oddness::Nul, &nuls));
    let is_bare = |at: &usize| file.get(at + 1) != Some(&b'\n');
    let bare: Vec<usize> = places(file, b'\r').filter(is_bare).collect();
    found.extend(oddity(file, Oddness::BareCr, &bare));
    found
}

/// The offsets of a byte in a file.
fn places(file: &[u8], wanted: u8) -> impl Iterator<Item = usize> + '_ {
    let all = file.iter().enumerate();
    all.filter(move |(_, byte)| **byte == wanted)
        .map(|(at, _)| at)
}

/// The oddity at the first of these offsets, if there is one.
fn oddity(file: &[u8], oddness: Oddness, offsets: &[usize]) -> Option<Oddity> {
    let before = &file[..*offsets.first()?];
    let last_line = before.rsplit(|byte| *byte == b'\n').next()?;
    Some(Oddity {
        oddness,
        line: 1 + before.iter().filter(|byte| **byte == b'\n').count(),
        column: 1 + last_line.len(),
        count: offsets.len(),
    })
}

/// Whether a file is likely to be UTF-16: it has the byte order mark of one, or NUL bytes in every second place and in no other, as ASCII
/// has.
fn is_utf16(file: &[u8]) -> bool {
    let nuls = |first: usize| {
        let places = file.iter().skip(first).step_by(2);
        places.filter(|byte| **byte == 0).count()
    };
    let (even, odd) = (nuls(0), nuls(1));
    let is_every_second = even.max(odd) >= file.len() / 2 && even.min(odd) == 0;
    matches!(file, [0xff, 0xfe, ..] | [0xfe, 0xff, ..]) || (file.len() >= 2 && is_every_second)
}
