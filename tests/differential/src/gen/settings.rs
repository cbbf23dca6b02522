//! Tables under which expressions are evaluated, and the names in them.

use oracle::table::{NAME, RECORD};
use oracle::Edition;

use super::names::{NUMBERS, TEXTS, UNSET, WIDES};
use super::numbers::edge;
use super::tables;
use crate::prng::Prng;

/// The kinds of values, as a table numbers them.
#[derive(Clone, Copy, PartialEq)]
pub enum Kind {
    Number = 0,
    Text = 1,
    Wide = 2,
}

pub const KINDS: [Kind; 3] = [Kind::Number, Kind::Text, Kind::Wide];

/// Mostly a table that defines many of the names which expressions use.
pub fn table(rng: &mut Prng) -> Vec<u8> {
    match rng.below(24) {
        0 => Vec::new(),
        1 | 2 => tables::valid(rng),
        3 => {
            let table = known(rng);
            let mut all = tables::damaged(rng, &table);
            all.swap_remove(rng.below(all.len())).1
        }
        _ => known(rng),
    }
}

/// Small numbers and short strings under the known names, a few left out.
pub fn known(rng: &mut Prng) -> Vec<u8> {
    let mut names: Vec<(&str, Kind)> = Vec::new();
    for (list, kind) in [
        (&NUMBERS[..], Kind::Number),
        (&TEXTS, Kind::Text),
        (&WIDES, Kind::Wide),
    ] {
        names.extend(list.iter().map(|&name| (name, kind)));
    }
    names.retain(|_| !rng.one_in(5));
    names.sort_by_key(|&(name, _)| name);
    names
        .into_iter()
        .flat_map(|(name, usual)| {
            let kind = match rng.below(12) {
                0 => rng.pick(&KINDS),
                _ => usual,
            };
            let number = edge(rng).to_le_bytes();
            let content: &[u8] = match kind {
                Kind::Number => &number,
                _ => rng.pick(&[&b""[..], b"a", b"ab", b"abc", b"b", b"a\0", b"\xff"]),
            };
            tables::record(name.as_bytes(), kind as u8, content)
        })
        .collect()
}

/// The names of a table, by the kinds of their values, and the edition in whose
/// spelling they and other operands are mostly written. Both editions read it.
#[derive(Clone)]
pub struct Names {
    by_kind: [Vec<Vec<u8>>; 3],
    /// Macros that DEFINE lines set above what is written next.
    defined: [Vec<Vec<u8>>; 3],
    edition: Edition,
}

impl Names {
    pub fn of(table: &[u8], edition: Edition) -> Names {
        let mut by_kind = [const { Vec::new() }; 3];
        let (records, _) = table.as_chunks::<RECORD>();
        for record in records {
            let name = record[..NAME].split(|&byte| byte == 0).next();
            // In a damaged table the kind may be any byte.
            if let Some(names) = by_kind.get_mut(usize::from(record[NAME])) {
                names.push(name.unwrap_or_default().to_vec());
            }
        }
        Names {
            by_kind,
            defined: [const { Vec::new() }; 3],
            edition,
        }
    }

    pub fn edition(&self) -> Edition {
        self.edition
    }

    /// Whether what the old edition alone takes is to be written next: often for
    /// that one, and now and then for the new one, which refuses it.
    pub fn takes_old_spelling(&self, rng: &mut Prng) -> bool {
        rng.one_in(match self.edition {
            Edition::Old => 2,
            Edition::New => 60,
        })
    }

    /// Notes that a DEFINE line sets this macro.
    pub fn define(&mut self, name: &[u8], kind: Kind) {
        for names in self.by_kind.iter_mut().chain(&mut self.defined) {
            names.retain(|known| known != name);
        }
        self.defined[kind as usize].push(name.to_vec());
    }

    /// The kind that a name has, if it is set.
    pub fn kind_of(&self, name: &[u8]) -> Option<Kind> {
        let lists =
            |kind: &Kind| [&self.defined, &self.by_kind].map(|lists| &lists[*kind as usize]);
        let has = |kind: &Kind| {
            lists(kind)
                .iter()
                .any(|names| names.iter().any(|known| known == name))
        };
        KINDS.into_iter().find(has)
    }

    /// A macro of this kind, if one is found.
    pub fn pick_macro(&self, rng: &mut Prng, kind: Kind) -> Option<Vec<u8>> {
        let is_one = |name: &Vec<u8>| !name.contains(&b'.') && self.kind_of(name) == Some(kind);
        (0..5).map(|_| self.pick(rng, kind)).find(is_one)
    }

    /// A name of this kind, or one that may be missing or of another kind.
    pub fn pick(&self, rng: &mut Prng, kind: Kind) -> Vec<u8> {
        let defined = &self.defined[kind as usize];
        if !defined.is_empty() && rng.one_in(2) {
            return defined[rng.below(defined.len())].clone();
        }
        if kind == Kind::Number && rng.one_in(10) {
            // It is a number wherever it is not set.
            let name = rng.pick(&UNSET).as_bytes();
            if self.kind_of(name).is_none_or(|known| known == kind) {
                return name.to_vec();
            }
        }
        let names = &self.by_kind[kind as usize];
        if !names.is_empty() && !rng.one_in(40) {
            return names[rng.below(names.len())].clone();
        }
        match kind {
            Kind::Number => rng.pick(&NUMBERS),
            Kind::Text => rng.pick(&TEXTS),
            Kind::Wide => rng.pick(&WIDES),
        }
        .into()
    }
}
