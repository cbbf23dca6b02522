//! How many columns a character takes on a terminal.

/// The columns that a text takes; a tab counts as the eight that it takes at most.
pub fn columns(text: &str) -> usize {
    text.chars().map(of_character).sum()
}

/// Most characters take one column. The blocks that take two, and those of marks that join the character before, are taken whole.
fn of_character(character: char) -> usize {
    match character {
        '\t' => 8,
        '\u{0300}'..='\u{036F}' | '\u{20D0}'..='\u{20FF}' => 0,
        '\u{FE00}'..='\u{FE0F}' | '\u{FE20}'..='\u{FE2F}' => 0,
        '\u{1100}'..='\u{115F}' | '\u{2E80}'..='\u{303E}' | '\u{3041}'..='\u{A4CF}' => 2,
        '\u{A960}'..='\u{A97F}' | '\u{AC00}'..='\u{D7A3}' | '\u{F900}'..='\u{FAFF}' => 2,
        '\u{FE30}'..='\u{FE6F}' | '\u{FF00}'..='\u{FF60}' | '\u{FFE0}'..='\u{FFE6}' => 2,
        '\u{1F300}'..='\u{1F64F}' | '\u{1F900}'..='\u{1F9FF}' | '\u{20000}'..='\u{3FFFD}' => 2,
        _ => 1,
    }
}
