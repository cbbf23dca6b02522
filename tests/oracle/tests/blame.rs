//! Which operator is blamed for 10, 11 and 12 (document 02, order 3), told from
//! the refusal numbers of the parts alone: each part of a random expression is
//! in parentheses, so it can be asked about by itself.

mod common;

use common::*;

/// An expression as text, with the place of its operator and its parts with
/// their places in it.
struct Part {
    text: String,
    operator: Option<usize>,
    inside: Vec<(usize, Part)>,
}

impl Part {
    /// In parentheses, since it may have a bar.
    fn enclosed(&self) -> String {
        format!("({})", self.text)
    }

    fn number(&self) -> Option<u8> {
        refusal_of(self.enclosed().as_bytes())
    }

    /// Whether evaluation gives something other than 0 for it.
    fn is_true(&self) -> bool {
        value_of(&self.enclosed()) != Ok(0)
    }

    fn add(&mut self, part: Part) {
        self.text += "(";
        let place = self.text.len();
        self.text += &part.text;
        self.text += ")";
        self.inside.push((place, part));
    }

    fn add_operator(&mut self, rng: &mut Prng, spelled: &'static str) {
        self.text += rng.pick(&["", " ", "\t "]);
        self.operator = Some(self.text.len());
        self.text += spelled;
        self.text += rng.pick(&["", " "]);
    }
}

const BINARY: [&str; 20] = [
    "*", "/", "%", "+", "-", "<<", ">>", "<", ">=", "==", "NE", "&", "^", "|", "&&", "AND", "XOR",
    "||", "OR", "/",
];

fn any(rng: &mut Prng, size: usize, operands: &[&'static str]) -> Part {
    let mut part = Part {
        text: String::new(),
        operator: None,
        inside: Vec::new(),
    };
    match (size, rng.below(6)) {
        (0, _) | (_, 0) => part.text = rng.pick(operands).to_string(),
        (_, 1) => {
            let operator = rng.pick(&["-", "!", "~", "NOT", "+"]);
            part.add_operator(rng, operator);
            let inner = any(rng, size - 1, operands);
            part.add(inner);
        }
        (_, 2) => {
            let third = size / 3;
            let test = any(rng, third, operands);
            part.add(test);
            part.add_operator(rng, "?");
            let yes = any(rng, third, operands);
            part.add(yes);
            part.text += ":";
            let no = any(rng, third, operands);
            part.add(no);
        }
        _ => {
            let half = size / 2;
            let left = any(rng, half, operands);
            part.add(left);
            let operator = rng.pick(&BINARY);
            part.add_operator(rng, operator);
            let right = any(rng, half, operands);
            part.add(right);
        }
    }
    part
}

/// The leftmost of the parts that have a wrong operator and none inside.
fn wrong(part: &Part, before: usize) -> Option<usize> {
    if part.number() != Some(10) {
        return None;
    }
    let inside = part.inside.iter();
    let found = inside.filter_map(|(place, inner)| wrong(inner, before + place));
    found.min().or(part.operator.map(|place| before + place))
}

/// The operator at which evaluation stops, for a part that has no value.
fn stopped(part: &Part, before: usize) -> usize {
    let fails = |index: usize| part.inside[index].1.number().is_some();
    let inner = |index: usize| {
        let (place, inner) = &part.inside[index];
        stopped(inner, before + place)
    };
    let own = before + part.operator.expect("an operand has a value");
    match part.inside.len() {
        _ if fails(0) => inner(0),
        1 => own,
        2 if fails(1) => inner(1),
        2 => own,
        // Only the arm that is chosen can be what fails now.
        _ => inner(if part.inside[0].1.is_true() { 1 } else { 2 }),
    }
}

/// The place of the operator that the whole is refused for, if any.
fn blamed(part: &Part) -> Option<usize> {
    let refusal = evaluate(part.enclosed().as_bytes(), &[]).err()?;
    refusal.place.map(|place| place - 1)
}

/// How deep the parts are nested.
fn depth(part: &Part) -> usize {
    let inside = part.inside.iter().map(|(_, inner)| 1 + depth(inner));
    inside.max().unwrap_or(0)
}

/// An expression that is refused with this number.
fn refused(rng: &mut Prng, operands: &[&'static str], number: u8) -> Part {
    loop {
        let size = 2 + rng.below(14);
        let part = any(rng, size, operands);
        if depth(&part) < 15 && part.number() == Some(number) {
            return part;
        }
    }
}

#[test]
fn wrong_kinds() {
    let mut rng = Prng(6);
    let mut inner = 0;
    for _ in 0..4_000 {
        let part = refused(&mut rng, &["0", "1", "2", "'a'", "L'a'"], 10);
        let expected = wrong(&part, 0);
        assert_eq!(blamed(&part), expected, "{}", part.text);
        inner += usize::from(part.operator != expected);
    }
    assert!(inner > 1_000, "{inner}");
}

#[test]
fn first_fault_that_evaluation_meets() {
    let mut rng = Prng(7);
    let mut inner = 0;
    for number in [11, 12] {
        for _ in 0..2_000 {
            let part = refused(&mut rng, &["0", "0", "1", "2", "3"], number);
            let expected = Some(stopped(&part, 0));
            assert_eq!(blamed(&part), expected, "{}", part.text);
            inner += usize::from(part.operator != expected);
        }
    }
    assert!(inner > 1_000, "{inner}");
}
