//! Every operator over every choice of a few operands that are refused, or have
//! something inside that would be, so that it is seen which operator is blamed.

/// Of wrong kinds, or with kinds of their own.
#[rustfmt::skip]
const KINDS: [&str; 10] = [
    "1", "b", "('a' == a)", "'a'", "L'a'", "(-'b')", "('b' + 1)", "(1 ? 'b' : 2)", "('b' ? 1 : 2)", "(0 ? 'a' : 'b')",
];

/// Without a value, or with something inside that has none and is skipped.
#[rustfmt::skip]
const VALUES: [&str; 9] = [
    "0", "1", "(5 - 7)", "(1 / 0)", "(-1)", "(2 % 0)", "(0 AND 1 / 0)", "(1 ? 0 : 5 - 7)", "(0 OR 5 - 7)",
];

const BINARY: [&str; 9] = ["*", "/", "-", "<<", "==", "&", "AND", "XOR", "OR"];

pub fn all() -> Vec<Vec<u8>> {
    let mut all = over(&KINDS);
    all.extend(over(&VALUES));
    all.into_iter().map(String::into_bytes).collect()
}

fn over(operands: &[&str]) -> Vec<String> {
    let mut all = Vec::new();
    for first in operands {
        all.push(format!("-{first}"));
        all.push(format!("NOT {first}"));
        for second in operands {
            for operator in BINARY {
                all.push(format!("{first} {operator} {second}"));
            }
            all.push(format!("({first} || {second})"));
            for third in operands {
                all.push(format!("{first} ? {second} : {third}"));
                all.push(format!("{first} + {second} == {third}"));
            }
        }
    }
    all
}
