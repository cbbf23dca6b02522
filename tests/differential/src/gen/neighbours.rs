//! Names beside a given one, which a search could take for it. The given name
//! is one that a record can have: 1 to 64 bytes, none of them zero.

use oracle::table::NAME;

/// The greatest name below and the least above, of those with at most 64 bytes and no zero byte.
pub fn closest(name: &[u8]) -> [Vec<u8>; 2] {
    let mut below = last_moved(name, 255);
    below.resize(NAME, 0xff);
    let above = match name.len() {
        NAME => last_moved(name, 1),
        _ => [name, b"\x01"].concat(),
    };
    [below, above]
}

/// The last byte missing, one less or one more, or one more byte at the end.
pub fn near(name: &[u8]) -> Vec<Vec<u8>> {
    let shorter = &name[..name.len() - 1];
    let mut names = vec![shorter.to_vec(), last_moved(name, 255), last_moved(name, 1)];
    names.extend(b"\0\x01.0A_a\xff".map(|byte| [name, &[byte]].concat()));
    names
}

/// With zero bytes at the end, inside or at the front.
pub fn with_zeros(name: &[u8]) -> Vec<Vec<u8>> {
    let (front, back) = name.split_at(name.len() / 2);
    let mut names = vec![
        [name, b"\0A"].concat(),
        [name, b"\0", name].concat(),
        [front, b"\0", back].concat(),
        [front, b"\0", &back[1..]].concat(),
        [&name[..name.len() - 1], b"\0"].concat(),
        [b"\0", &name[1..]].concat(),
        [b"\0", name].concat(),
    ];
    for len in [NAME - 1, NAME, NAME + 1, 2 * NAME] {
        names.extend((len > name.len()).then(|| filled(name, 0, len)));
    }
    let mut padded = filled(name, 0, NAME);
    padded.push(b'A');
    names.push(padded);
    names
}

/// Longer than any name of a table; the last has the length of the name if
/// only the lowest byte of a length is kept.
pub fn prolonged(name: &[u8]) -> Vec<Vec<u8>> {
    [NAME + 1, NAME + 2, 2 * NAME, 256, name.len() + 256]
        .map(|len| filled(name, b'A', len))
        .to_vec()
}

/// Much longer; the last has the length of the name if only the lowest two
/// bytes of a length are kept.
pub fn very_long(name: &[u8]) -> Vec<Vec<u8>> {
    vec![
        filled(name, b'A', 100_000),
        filled(name, 0, 100_000),
        filled(name, b'A', name.len() + 65_536),
    ]
}

/// Every proper beginning of the name, and every byte of it one up or one down.
pub fn changed(name: &[u8]) -> Vec<Vec<u8>> {
    let mut names = Vec::new();
    for place in 0..name.len() {
        names.push(name[..place].to_vec());
        names.extend([1, 255].map(|step| moved(name, place, step)));
    }
    names
}

/// The empty name, and names below and above those of most tables or of all.
pub fn of_any_table() -> Vec<Vec<u8>> {
    let mut names = vec![Vec::new()];
    for byte in *b"\0\x01.09@A[z{\x80\xff" {
        names.extend([1, NAME, NAME + 1].map(|len| vec![byte; len]));
    }
    names
}

fn filled(name: &[u8], byte: u8, len: usize) -> Vec<u8> {
    let mut longer = name.to_vec();
    longer.resize(len, byte);
    longer
}

fn last_moved(name: &[u8], step: u8) -> Vec<u8> {
    moved(name, name.len() - 1, step)
}

/// One byte goes up by one with a step of 1, and down with 255.
fn moved(name: &[u8], place: usize, step: u8) -> Vec<u8> {
    let mut other = name.to_vec();
    other[place] = other[place].wrapping_add(step);
    other
}
