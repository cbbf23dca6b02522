//! Files that are nearly all accepted and whose branches hang on DEFINE lines:
//! macros are set in branches of every sort, and asked for before and after.

use super::bare_words;
use super::directives::{nothing, plain, written, BLANKS};
use super::settings::{Kind, Names};
use super::shapes::line;
use crate::prng::Prng;

/// Macros that only have numbers here, and strings of one kind. Most tables have
/// some of them.
const NUMBERS: [&str; 5] = ["A", "B", "D0", "D1", "NEW"];
const TEXTS: [&str; 2] = ["S", "T"];
const WIDES: [&str; 2] = ["W", "V"];

pub fn any(rng: &mut Prng, names: &Names) -> Vec<Vec<u8>> {
    let is_number = |name: &&str| {
        let kind = names.kind_of(name.as_bytes());
        kind.is_none_or(|kind| kind == Kind::Number)
    };
    let mut writer = Writer {
        numbers: NUMBERS.into_iter().filter(is_number).collect(),
        rng,
        names,
        lines: Vec::new(),
    };
    // A string has to be one wherever it is asked for.
    for (list, kind) in [(TEXTS, Kind::Text), (WIDES, Kind::Wide)] {
        for name in list {
            writer.define(name, kind);
        }
    }
    for _ in 0..writer.rng.between(1, 4) {
        let depth = writer.rng.below(4);
        writer.block(depth);
        writer.group(depth);
    }
    writer.lines
}

struct Writer<'a> {
    rng: &'a mut Prng,
    names: &'a Names,
    numbers: Vec<&'static str>,
    lines: Vec<Vec<u8>>,
}

impl Writer<'_> {
    fn any_macro(&mut self) -> (&'static str, Kind) {
        match self.rng.below(6) {
            0 => (self.rng.pick(&TEXTS), Kind::Text),
            1 => (self.rng.pick(&WIDES), Kind::Wide),
            _ => (self.rng.pick(&self.numbers), Kind::Number),
        }
    }

    /// Any of them that has the same kind, as an operand.
    fn another(&mut self, kind: Kind) -> Vec<u8> {
        let name = match kind {
            Kind::Number => self.rng.pick(&self.numbers),
            Kind::Text => self.rng.pick(&TEXTS),
            Kind::Wide => self.rng.pick(&WIDES),
        };
        written(name.into())
    }

    fn literal(&mut self, kind: Kind) -> Vec<u8> {
        match kind {
            Kind::Number => self.rng.pick(&["0", "1", "2", "3"]),
            Kind::Text => self.rng.pick(&["'a'", "'ab'", "'b'", "''"]),
            Kind::Wide => self.rng.pick(&["L'a'", "L\"ab\"", "L''"]),
        }
        .into()
    }

    fn define(&mut self, name: &str, kind: Kind) {
        let literal = self.literal(kind);
        let value = match (self.rng.below(8), kind) {
            // The strings are not all set yet when the first of them are.
            (0 | 1, _) if kind == Kind::Number || self.lines.len() > 4 => self.another(kind),
            (2, Kind::Number) => [&self.another(kind)[..], b" % 3 + ", &literal].concat(),
            (3, Kind::Number) => self.comparison(),
            (4, Kind::Number) => [b"(0 || ", &self.another(kind)[..], b")"].concat(),
            _ => literal,
        };
        let line = line(self.rng, name.as_bytes(), &value);
        self.lines.push(line);
    }

    fn comparison(&mut self) -> Vec<u8> {
        let (name, kind) = match self.lines.len() {
            0..=4 => (self.rng.pick(&self.numbers), Kind::Number),
            _ => self.any_macro(),
        };
        let left = written(name.into());
        if kind == Kind::Text && self.names.takes_old_spelling(self.rng) {
            return bare_words::equality(self.rng, &left);
        }
        let operator: &[u8] = self
            .rng
            .pick(&[&b" == "[..], b" == ", b"!=", b" < ", b" GE "]);
        let right = match self.rng.below(3) {
            0 => self.another(kind),
            _ => self.literal(kind),
        };
        [&left[..], operator, &right].concat()
    }

    fn directive(&mut self, word: &str, text: &[u8]) {
        let blanks = self.rng.pick(BLANKS);
        self.lines
            .push([blanks, b"!", word.as_bytes(), text].concat());
    }

    fn condition(&mut self) -> Vec<u8> {
        let mut text = [b" ", &self.comparison()[..]].concat();
        if self.rng.one_in(3) {
            let operator: &[u8] = self.rng.pick(&[&b" || "[..], b" AND ", b" XOR ", b"|"]);
            text.extend(operator);
            text.extend(self.comparison());
        }
        text
    }

    fn block(&mut self, depth: usize) {
        for _ in 0..self.rng.between(1, 3) {
            match self.rng.below(6) {
                0 => self.lines.push(plain(self.rng)),
                1 | 2 if depth > 0 => self.group(depth - 1),
                _ => {
                    let (name, kind) = self.any_macro();
                    self.define(name, kind);
                }
            }
        }
    }

    fn group(&mut self, depth: usize) {
        match self.rng.below(3) {
            0 => {
                let word = self.rng.pick(&["ifdef", "ifndef"]);
                let name = self.rng.pick(&NUMBERS).into();
                let name = match self.names.takes_old_spelling(self.rng) {
                    true => written(name),
                    false => name,
                };
                self.directive(word, &[b" ", &name[..]].concat());
            }
            _ => {
                let text = self.condition();
                self.directive("if", &text);
            }
        }
        self.block(depth);
        for _ in 0..self.rng.pick(&[0, 0, 1, 2]) {
            let text = self.condition();
            self.directive("elseif", &text);
            self.block(depth);
        }
        if self.rng.one_in(2) {
            self.directive("else", b"");
            self.block(depth);
        }
        let text = nothing(self.rng);
        self.directive("endif", &text);
    }
}
