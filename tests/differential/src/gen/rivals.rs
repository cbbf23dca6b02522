//! Expressions with several reasons to be refused, so that it is seen which one
//! is given and that its own place comes with it.

use crate::prng::Prng;

/// Operands, each with a reason of its own for one of the refusals 3 to 12 (5
/// and 6 are in `operands`), and a few with none. A table may have `g.P`.
#[rustfmt::skip]
const OPERANDS: [&str; 51] = [
    "@", "foo", "L", "L'a", "007", "$(a)", "1.a", "g.1", "'a' = 1",
    "18446744073709551616", "0x10000000000000000",
    "1 1", "* 1", "1 +", "()", "(1 ? 2)", "1 : 2", "1 ! 2", "1)", "((1)",
    "1 | 1", "(1 | 1) || 1",
    "g.None", "(0 AND g.None)", "(g.P + g.None)", "(1 ? 1 : g.None)",
    "-'a'", "('a' + 1)", "(1 ? 'a' : 2)", "('a' ? 1 : 2)", "'a' == 1", "-('a' * (-L'a'))",
    "(5 - 7)", "-1", "1 << 64", "((0 AND 1 / 0) - 1)", "(1 ? 5 - 7 : 1 / 0)",
    "(1 / 0)", "1 % 0", "(0 OR 1 / 0)", "(1 / 0 - (5 - 7))", "(0 ? 5 - 7 : 1 / 0)",
    "1", "0", "'a' == 'a'", "'a' == a", "('a' NE b)", "(1 EQ a)", "(1 OR 1 / 0)", "(0 AND 5 - 7)", "(1 ? 2 : 1 / 0)",
];

fn operands() -> Vec<String> {
    let mut all: Vec<String> = OPERANDS.map(str::to_string).to_vec();
    all.push(format!("{}1", "+".repeat(199)));
    all.push(format!("{}1{}", "(".repeat(17), ")".repeat(17)));
    all
}

/// What can be between two operands, and after the second.
const JOINTS: [(&str, &str); 8] = [
    (" + ", ""),
    (" - ", ""),
    (" == ", ""),
    (" AND ", ""),
    (" OR ", ""),
    ("|", ""),
    (" ? ", " : 1"),
    (" ? 1 : ", ""),
];

/// Every two operands in either order, as they are and in parentheses.
pub fn pairs() -> Vec<Vec<u8>> {
    let operands = operands();
    let mut all = Vec::new();
    for left in &operands {
        for right in &operands {
            for (joint, end) in JOINTS {
                all.push(format!("{left}{joint}{right}{end}").into_bytes());
                all.push(format!("\t({left}){joint}({right}){end} #").into_bytes());
            }
        }
    }
    all
}

/// Two to five operands.
pub fn any(rng: &mut Prng) -> Vec<u8> {
    let operands = operands();
    let operand = |rng: &mut Prng| {
        // The first ones are so bad that nothing else counts beside them.
        let from = rng.pick(&[0, 11, 20, 22, 26, 32]);
        operands[rng.between(from, operands.len() - 1)].clone()
    };
    let mut text = operand(rng);
    for _ in 0..rng.between(1, 4) {
        let (joint, end) = rng.pick(&JOINTS);
        let right = operand(rng);
        text = match rng.below(3) {
            0 => format!("{text}{joint}({right}){end}"),
            1 => format!("({text}){joint}{right}{end}"),
            _ => format!("{text}{joint}{right}{end}"),
        };
    }
    text.into_bytes()
}
