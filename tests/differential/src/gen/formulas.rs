//! Expressions that mostly have a value: operands of the kinds that their
//! operators take, small numbers, short strings, and no more parentheses than
//! the precedence of document 01 needs, except a few.

use super::bare_words;
use super::expressions::join_well;
use super::numbers::edge;
use super::settings::{Kind, Names, KINDS};
use crate::prng::Prng;

/// The loosest level, that of `?:`, and the one before it.
const CHOICE: u8 = 13;
const BINARY: u8 = 12;

/// The level of `==` and its like.
const EQUALITY: u8 = 6;

/// Binary operators that take numbers, with their levels. The likelier ones
/// are here more than once.
#[rustfmt::skip]
pub const NUMERIC: [(&str, u8); 22] = [
    ("*", 2), ("/", 2), ("%", 2), ("+", 3), ("+", 3), ("-", 3), ("<<", 4), (">>", 4), ("&", 7), ("^", 8),
    ("|", 9), ("|", 9), ("&&", 10), ("AND", 10), ("AND", 10), ("and", 10), ("XOR", 11), ("xor", 11),
    ("||", 12), ("||", 12), ("OR", 12), ("or", 12),
];

#[rustfmt::skip]
pub const COMPARISONS: [(&str, u8); 12] = [
    ("<", 5), ("<=", 5), (">", 5), (">=", 5), ("LT", 5), ("LE", 5), ("GT", 5), ("GE", 5),
    ("==", 6), ("!=", 6), ("EQ", 6), ("NE", 6),
];

const UNARY: [&str; 7] = ["!", "NOT", "not", "~", "+", "-", "!"];

/// Where an expression is to be used. Bars outside parentheses are refused
/// everywhere but in a condition (document 02, order 1).
#[derive(Clone, Copy)]
pub enum Place {
    /// By itself or in a field.
    Alone,
    Condition,
}

impl Place {
    /// Whether bars that are outside parentheses are to stay so.
    pub fn leaves_bars(self, rng: &mut Prng) -> bool {
        rng.one_in(match self {
            Place::Alone => 12,
            Place::Condition => 2,
        })
    }
}

/// How often an operand is one that is refused: one in so many, 0 for never.
#[derive(Clone, Copy)]
pub struct Faults {
    /// Of another kind than its operator takes.
    pub kind: usize,
    /// A PCD that no table has.
    pub missing: usize,
    /// With an operator that has no result, unless it is skipped.
    pub value: usize,
}

const FEW: Faults = Faults {
    kind: 120,
    missing: 0,
    value: 0,
};

/// An expression of this kind, or of any if none is given.
pub fn formula(rng: &mut Prng, names: &Names, kind: Option<Kind>, place: Place) -> Vec<u8> {
    let mut pieces = written(rng, names, kind, FEW);
    if bar_outside(&pieces) && !place.leaves_bars(rng) {
        pieces.insert(0, b"(".to_vec());
        pieces.push(b")".to_vec());
    }
    join_well(rng, &pieces)
}

/// The tokens of a formula.
pub fn written(rng: &mut Prng, names: &Names, kind: Option<Kind>, faults: Faults) -> Vec<Vec<u8>> {
    let size = match rng.below(20) {
        0 => rng.between(40, 110),
        1..=4 => 1,
        _ => rng.between(2, 24),
    };
    let kind = kind.unwrap_or_else(|| match rng.below(8) {
        0 => rng.pick(&KINDS),
        _ => Kind::Number,
    });
    let mut writer = Writer {
        rng,
        names,
        faults,
        out: Vec::new(),
    };
    writer.expression(kind, size, CHOICE);
    writer.out
}

fn bar_outside(pieces: &[Vec<u8>]) -> bool {
    let mut depth = 0;
    pieces.iter().any(|piece| {
        match piece.as_slice() {
            b"(" => depth += 1,
            b")" => depth -= 1,
            _ => {}
        }
        depth == 0 && piece[0] == b'|'
    })
}

struct Writer<'a> {
    rng: &'a mut Prng,
    names: &'a Names,
    faults: Faults,
    out: Vec<Vec<u8>>,
}

impl Writer<'_> {
    fn push(&mut self, text: &str) {
        self.out.push(text.as_bytes().to_vec());
    }

    /// Writes what `inside` writes, which has the given level, in parentheses
    /// if the place needs a tighter one.
    fn at_level(&mut self, level: u8, loosest: u8, inside: impl FnOnce(&mut Self)) {
        let wrapped = level > loosest || self.rng.one_in(10);
        if wrapped {
            self.push("(");
        }
        inside(self);
        if wrapped {
            self.push(")");
        }
    }

    /// An expression of about `size` tokens, at most as loose as `loosest`.
    fn expression(&mut self, kind: Kind, size: usize, loosest: u8) {
        if size <= 1 {
            return self.operand(kind);
        }
        match (kind, self.rng.below(16)) {
            (Kind::Number, 0..=2) => self.at_level(1, loosest, |writer| writer.unary(size - 1)),
            (Kind::Number, 3..=6) => self.comparison(size, loosest),
            (Kind::Number, 7..=13) => self.numeric(size, loosest),
            _ => self.at_level(CHOICE, loosest, |writer| {
                writer.expression(Kind::Number, size / 3, BINARY);
                writer.push("?");
                writer.expression(kind, size / 3, CHOICE);
                writer.push(":");
                writer.expression(kind, size / 3, CHOICE);
            }),
        }
    }

    fn unary(&mut self, size: usize) {
        let operator = self.rng.pick(&UNARY);
        self.push(operator);
        // Minus has a result only for 0.
        if operator == "-" && !self.rng.one_in(4) {
            let zero = self.rng.pick(&["0", "0x0", "FALSE", "false"]);
            return self.push(zero);
        }
        self.expression(Kind::Number, size, 1);
    }

    fn comparison(&mut self, size: usize, loosest: u8) {
        let (operator, level) = self.rng.pick(&COMPARISONS);
        let kind = self
            .rng
            .pick(&[Kind::Number, Kind::Number, Kind::Text, Kind::Wide]);
        self.at_level(level, loosest, |writer| {
            writer.expression(kind, size / 2, level);
            writer.push(operator);
            // Only equality operators have a bare word after them.
            match kind == Kind::Text && level == EQUALITY {
                true if writer.names.takes_old_spelling(writer.rng) => {
                    let word = bare_words::word(writer.rng);
                    writer.push(word);
                }
                _ => writer.expression(kind, size / 2, level - 1),
            }
        });
    }

    fn numeric(&mut self, size: usize, loosest: u8) {
        let (operator, level) = self.rng.pick(&NUMERIC);
        self.at_level(level, loosest, |writer| {
            writer.expression(Kind::Number, size / 2, level);
            writer.push(operator);
            // Operands with which these operators mostly have a result.
            let literals: &[&str] = match operator {
                "/" | "%" => &["1", "2", "3", "0x10", "TRUE", "0"],
                "-" => &["0", "0", "1", "FALSE"],
                "<<" => &["0", "1", "2", "3", "8", "62", "63", "64"],
                ">>" => &["0", "1", "2", "63", "64", "65", "4294967296"],
                _ => &[],
            };
            if literals.is_empty() || writer.rng.one_in(3) {
                writer.expression(Kind::Number, size / 2, level - 1);
            } else {
                let literal = writer.rng.pick(literals);
                writer.push(literal);
            }
        });
    }

    /// Whether the next operand is to be refused.
    fn strikes(&mut self, one_in: usize) -> bool {
        one_in > 0 && self.rng.one_in(one_in)
    }

    fn operand(&mut self, kind: Kind) {
        let kind = match self.strikes(self.faults.kind) {
            true => self.rng.pick(&KINDS),
            false => kind,
        };
        if self.strikes(self.faults.missing) {
            let name = self.rng.pick(&["g.None", "NOT.here", "_._"]);
            return self.push(name);
        }
        if kind == Kind::Number && self.strikes(self.faults.value) {
            let tokens: &[&str] = self.rng.pick(&[
                &["-", "1"][..],
                &["(", "5", "-", "7", ")"],
                &["(", "1", "/", "0", ")"],
                &["(", "2", "%", "0", ")"],
                &["(", "1", "<<", "64", ")"],
                &["(", "0", "AND", "1", "/", "0", ")"],
            ]);
            tokens.iter().for_each(|token| self.push(token));
            return;
        }
        if self.rng.one_in(3) {
            let name = self.names.pick(self.rng, kind);
            self.out.push(match name.contains(&b'.') {
                true => name,
                false => [b"$(", &name[..], b")"].concat(),
            });
            return;
        }
        let string = self.rng.pick(&[
            "''",
            "'a'",
            "\"a\"",
            "\"ab\"",
            "'abc'",
            "\"b # '\"",
            "'\x7f'",
        ]);
        let text = match kind {
            Kind::Text => string.to_string(),
            Kind::Wide => format!("L{string}"),
            Kind::Number => number(self.rng),
        };
        self.push(&text);
    }
}

/// A number literal or a truth word.
pub fn number(rng: &mut Prng) -> String {
    let number = edge(rng);
    match rng.below(6) {
        0 => rng
            .pick(&["TRUE", "True", "true", "FALSE", "False", "false"])
            .to_string(),
        1 => format!("0x{number:x}"),
        2 => format!("0X{number:06X}"),
        _ => number.to_string(),
    }
}
