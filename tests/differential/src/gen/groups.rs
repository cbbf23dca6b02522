//! Files whose groups are nested as they should be, as lists of lines without
//! their ends.

use super::definitions;
use super::directives::{condition, name, nothing, plain, BLANKS};
use super::settings::Names;
use crate::prng::Prng;

/// A few lines, or now and then many, mostly of a file that is accepted.
pub fn nested(rng: &mut Prng, names: &Names) -> Vec<Vec<u8>> {
    let size = match rng.below(30) {
        0 => rng.between(100, 600),
        1..=5 => rng.below(5),
        _ => rng.between(5, 40),
    };
    let depth = rng.between(1, 6);
    let mut writer = Writer::new(rng, names);
    for _ in 0..writer.rng.pick(&[0, 0, 0, 1, 2, 5]) {
        writer.define();
    }
    while writer.lines.len() < size {
        writer.block(depth);
    }
    writer.lines
}

/// `depth` groups, each in a branch of the one around it, and as many
/// `!endif` lines, or nearly.
pub fn deep(rng: &mut Prng, names: &Names) -> Vec<Vec<u8>> {
    let depth = rng.between(14, 18);
    // How often a condition is written so that it is surely true.
    let truth = rng.pick(&[0, 1, 3, 100]);
    let mut writer = Writer::new(rng, names);
    for _ in 0..depth {
        match writer.rng.below(truth + 1) {
            0 => writer.open(),
            _ => {
                let text = writer.rng.pick(&[" 1", " 0 || 1"]);
                writer.directive("if", text.into());
            }
        }
        if writer.rng.one_in(12) {
            writer.branches(0);
        }
        if writer.rng.one_in(12) {
            writer.group(0);
        }
        if writer.rng.one_in(8) {
            writer.define();
        }
    }
    let ends = match writer.rng.below(4) {
        0 => depth - 1,
        _ => depth,
    };
    for _ in 0..ends {
        let text = nothing(writer.rng);
        writer.directive("endif", text);
    }
    writer.lines
}

struct Writer<'a> {
    rng: &'a mut Prng,
    /// With those that the lines so far set.
    names: Names,
    lines: Vec<Vec<u8>>,
    /// Groups that are open.
    open: usize,
}

impl<'a> Writer<'a> {
    fn new(rng: &'a mut Prng, names: &Names) -> Writer<'a> {
        Writer {
            rng,
            names: names.clone(),
            lines: Vec::new(),
            open: 0,
        }
    }

    fn directive(&mut self, word: &str, text: Vec<u8>) {
        match word {
            "if" | "ifdef" | "ifndef" => self.open += 1,
            "endif" => self.open -= 1,
            _ => {}
        }
        let blanks = self.rng.pick(BLANKS);
        self.lines
            .push([blanks, b"!", word.as_bytes(), &text].concat());
    }

    fn define(&mut self) {
        let line = definitions::good(self.rng, &mut self.names, self.open == 0);
        self.lines.push(line);
    }

    /// Plain lines, DEFINE lines, and groups that hold at most `depth` groups
    /// within.
    fn block(&mut self, depth: usize) {
        for _ in 0..self.rng.below(4) {
            match self.rng.below(6) {
                0 | 1 if depth > 0 => self.group(depth - 1),
                2 | 3 => self.define(),
                _ => self.lines.push(plain(self.rng)),
            }
        }
    }

    fn group(&mut self, depth: usize) {
        self.open();
        self.block(depth);
        self.branches(depth);
        let text = nothing(self.rng);
        self.directive("endif", text);
    }

    fn open(&mut self) {
        let word = self.rng.pick(&["if", "if", "if", "ifdef", "ifndef"]);
        let text = match word {
            "if" => condition(self.rng, &self.names),
            _ => name(self.rng, &self.names),
        };
        self.directive(word, text);
    }

    fn branches(&mut self, depth: usize) {
        for _ in 0..self.rng.pick(&[0, 0, 1, 2, 4]) {
            let word = self.rng.pick(&["elseif", "elif"]);
            let text = condition(self.rng, &self.names);
            self.directive(word, text);
            self.block(depth);
        }
        if self.rng.one_in(2) {
            let text = nothing(self.rng);
            self.directive("else", text);
            self.block(depth);
        }
    }
}
