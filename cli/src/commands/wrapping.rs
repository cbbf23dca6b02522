//! Long usages in several lines.

/// A usage that begins after this many columns, broken at blanks outside brackets; further lines begin below the first.
pub fn wrapped(usage: &str, indent: usize, columns: usize) -> String {
    let mut text = String::new();
    let mut column = indent;
    for part in parts(usage) {
        if column > indent && column + 1 + part.len() > columns {
            text += &format!("\n{}", " ".repeat(indent));
            column = indent;
        } else if column > indent {
            text.push(' ');
            column += 1;
        }
        text += part;
        column += part.len();
    }
    text
}

/// The parts of a usage: what is in brackets is one.
fn parts(usage: &str) -> Vec<&str> {
    let mut depth = 0;
    let is_break = |character: char| {
        match character {
            '[' => depth += 1,
            ']' => depth -= 1,
            _ => {}
        }
        character == ' ' && depth == 0
    };
    usage.split(is_break).collect()
}
