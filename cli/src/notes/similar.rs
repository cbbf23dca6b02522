//! Names that differ by one slip of the pen.

/// Whether one edit makes one name of the other: a byte that is put in, left out or replaced, or two neighbours that change places. Names of
/// one byte are similar to no other one of one byte, since nothing stays the same.
pub fn similar(one: &[u8], other: &[u8]) -> bool {
    let (short, long) = match one.len() <= other.len() {
        true => (one, other),
        false => (other, one),
    };
    if long.len() == 1 {
        return false;
    }
    let start = short.iter().zip(long).take_while(|(a, b)| a == b).count();
    match (&short[start..], &long[start..]) {
        ([], []) => false,
        ([a, b, rest @ ..], [c, d, others @ ..]) if a == d && b == c && rest == others => true,
        ([_, rest @ ..], [_, others @ ..]) if short.len() == long.len() => rest == others,
        (rest, [_, others @ ..]) => rest == others,
        _ => false,
    }
}

#[cfg(test)]
mod tests {
    use super::similar;

    #[test]
    fn one_edit() {
        for other in [
            "CELL", "CELLSS", "CELLA", "ECLLS", "CELSL", "ACELLS", "ELLS", "CLLS",
        ] {
            assert!(similar(b"CELLS", other.as_bytes()), "{other}");
            assert!(similar(other.as_bytes(), b"CELLS"), "{other}");
        }
    }

    #[test]
    fn short_names() {
        assert!(!similar(b"A", b"B"));
        assert!(similar(b"A", b"AB"));
        assert!(similar(b"AB", b"BA"));
        assert!(similar(b"AB", b"AC"));
    }

    #[test]
    fn none_or_more() {
        for other in [
            "CELLS", "", "CEL", "CELLSSS", "CEAAS", "SELLC", "LECLS", "CLELSS", "EC",
        ] {
            assert!(!similar(b"CELLS", other.as_bytes()), "{other}");
            assert!(!similar(other.as_bytes(), b"CELLS"), "{other}");
        }
    }
}
