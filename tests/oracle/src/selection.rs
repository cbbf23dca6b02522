//! Which lines of a file are kept (document 01, Lines and directives, and
//! document 02, orders 1, 3, 5 and 6).

use crate::bytes::{is_blank, macro_length, skip_blanks};
use crate::definition::{after_define, shape, Definition};
use crate::edition::Edition;
use crate::expression::{evaluate_with, Bars, Value};
use crate::lines::{lines, sort, Line, Word};
use crate::refusal::{self, Refusal};
use crate::settings::Settings;
use crate::table::is_well_formed;

pub const MAX_FILE: usize = 65_536;
pub const MAX_LINES: usize = 4_096;
pub const MAX_LINE: usize = 1_024;
pub const MAX_GROUPS: usize = 16;

// The refusals that more than one place gives.
const NESTING: Refusal = Refusal::nowhere(refusal::NESTING);
const ARGUMENT: Refusal = Refusal::nowhere(refusal::ARGUMENT);

/// The values of a mark byte.
pub mod mark {
    pub const DROPPED: u8 = 0;
    pub const KEPT: u8 = 1;
    pub const UNREAD: u8 = 2;
    pub const NOT_TAKEN: u8 = 3;
    pub const TAKEN: u8 = 4;
    pub const END: u8 = 5;
    pub const DEFINE: u8 = 6;
    pub const REFUSED: u8 = 255;
}

/// Number of lines and sum of operator counts, or refusal and its line. The
/// refusal's place is counted from the start of that line.
pub type Selection = Result<(usize, u64), (Refusal, usize)>;

/// Marks every line of the file. A refusal sets all of `marks` to 255.
pub fn select(file: &[u8], table: &[u8], edition: Edition, marks: &mut [u8]) -> Selection {
    let result = run(file, table, edition, marks);
    if result.is_err() {
        marks.fill(mark::REFUSED);
    }
    result
}

fn run(file: &[u8], table: &[u8], edition: Edition, marks: &mut [u8]) -> Selection {
    if !is_well_formed(table) {
        return Err((Refusal::nowhere(refusal::TABLE), 0));
    }
    if file.len() > MAX_FILE {
        return Err((Refusal::nowhere(refusal::FILE_LENGTH), 0));
    }
    let total = lines(file).count();
    if total > MAX_LINES {
        return Err((Refusal::nowhere(refusal::LINE_COUNT), 0));
    }
    if marks.len() < total {
        return Err((Refusal::nowhere(refusal::MARKS), 0));
    }
    let mut state = State {
        settings: Settings::of(table),
        edition,
        groups: Vec::new(),
        count: 0,
    };
    for (index, line) in lines(file).enumerate() {
        let number = index + 1;
        marks[index] = state
            .step(line, number)
            .map_err(|refusal| (refusal, number))?;
    }
    match state.groups.last() {
        Some(group) => Err((Refusal::nowhere(refusal::OPEN_END), group.opened)),
        None => Ok((total, state.count)),
    }
}

/// One open `!if`, `!ifdef` or `!ifndef`.
struct Group {
    /// The line that opened it.
    opened: usize,
    /// Whether the branch around the whole group is taken, or there is none.
    around: bool,
    /// Whether the branch that the run is in now is taken.
    taken: bool,
    /// Whether some branch so far was taken.
    any_taken: bool,
    /// Whether its `!else` has been passed.
    after_else: bool,
}

struct State<'a> {
    settings: Settings<'a>,
    edition: Edition,
    groups: Vec<Group>,
    count: u64,
}

impl<'a> State<'a> {
    /// The mark of the next line, or its refusal.
    fn step(&mut self, line: &'a [u8], number: usize) -> Result<u8, Refusal> {
        if line.len() > MAX_LINE {
            return Err(Refusal::nowhere(refusal::LINE_LENGTH));
        }
        let live = self.groups.last().is_none_or(|group| group.taken);
        match sort(line).map_err(Refusal::nowhere)? {
            Line::Plain if live => self.keep(line),
            Line::Plain => Ok(mark::DROPPED),
            Line::Directive { word, argument } => {
                let before = line.len() - argument.len();
                match word {
                    Word::If | Word::Ifdef | Word::Ifndef => {
                        self.open(word, argument, live, number)
                    }
                    Word::Elseif => self.next_branch(argument),
                    Word::Else => self.last_branch(argument),
                    Word::Endif => self.close(argument),
                }
                .map_err(|refusal| refusal.after(before))
            }
        }
    }

    /// A plain line that is kept. If its first word is `DEFINE`, it sets a
    /// macro from the next line on.
    fn keep(&mut self, line: &'a [u8]) -> Result<u8, Refusal> {
        let Some(text) = after_define(line) else {
            return Ok(mark::KEPT);
        };
        let Definition { name, expression } = shape(text).ok_or(ARGUMENT)?;
        let before = line.len() - expression.len();
        let outcome = evaluate_with(expression, &self.settings, self.edition, Bars::Enclosed)
            .map_err(|refusal| refusal.after(before))?;
        self.settings
            .define(name, outcome.value)
            .map_err(Refusal::nowhere)?;
        self.count += outcome.count;
        Ok(mark::DEFINE)
    }

    fn open(
        &mut self,
        word: Word,
        argument: &'a [u8],
        live: bool,
        line: usize,
    ) -> Result<u8, Refusal> {
        if self.groups.len() == MAX_GROUPS {
            return Err(Refusal::nowhere(refusal::GROUPS));
        }
        let taken = live && self.condition(word, argument)?;
        // A group in a dropped branch is kept track of all the same: its own
        // `!endif` must not close the group around it.
        self.groups.push(Group {
            opened: line,
            around: live,
            taken,
            any_taken: taken,
            after_else: false,
        });
        Ok(branch_mark(live, taken))
    }

    fn next_branch(&mut self, argument: &'a [u8]) -> Result<u8, Refusal> {
        let group = self.group_before_else()?;
        let read = group.around && !group.any_taken;
        let taken = read && self.condition(Word::Elseif, argument)?;
        let group = self.group_before_else()?;
        group.taken = taken;
        group.any_taken |= taken;
        Ok(branch_mark(read, taken))
    }

    fn last_branch(&mut self, argument: &[u8]) -> Result<u8, Refusal> {
        let group = self.group_before_else()?;
        group.after_else = true;
        if group.around {
            check_nothing(argument)?;
        }
        let taken = group.around && !group.any_taken;
        group.taken = taken;
        group.any_taken |= taken;
        Ok(branch_mark(group.around, taken))
    }

    fn close(&mut self, argument: &[u8]) -> Result<u8, Refusal> {
        let group = self.groups.pop().ok_or(NESTING)?;
        if !group.around {
            return Ok(mark::UNREAD);
        }
        check_nothing(argument)?;
        Ok(mark::END)
    }

    fn group_before_else(&mut self) -> Result<&mut Group, Refusal> {
        self.groups
            .last_mut()
            .filter(|group| !group.after_else)
            .ok_or(NESTING)
    }

    /// Reads the argument of a directive that has a condition. Places are
    /// counted from the start of the argument.
    fn condition(&mut self, word: Word, argument: &'a [u8]) -> Result<bool, Refusal> {
        if !argument.first().is_some_and(|&byte| is_blank(byte)) {
            return Err(ARGUMENT);
        }
        match word {
            Word::Ifdef => self.defined(argument),
            Word::Ifndef => Ok(!self.defined(argument)?),
            _ => {
                let outcome = evaluate_with(argument, &self.settings, self.edition, Bars::Free)?;
                self.count += outcome.count;
                match outcome.value {
                    Value::Number(0) => Ok(false),
                    Value::Number(1) => Ok(true),
                    _ => Err(Refusal::nowhere(refusal::CONDITION)),
                }
            }
        }
    }

    /// Whether the one macro that the argument names is set. Only the old
    /// edition takes it as `$(NAME)` too.
    fn defined(&self, argument: &[u8]) -> Result<bool, Refusal> {
        let text = skip_blanks(argument);
        let (text, bracketed) = match (self.edition, text) {
            (Edition::Old, [b'$', b'(', inside @ ..]) => (inside, true),
            _ => (text, false),
        };
        let (name, mut rest) = text.split_at(macro_length(text));
        if name.is_empty() {
            return Err(ARGUMENT);
        }
        if bracketed {
            rest = rest.strip_prefix(b")").ok_or(ARGUMENT)?;
        }
        check_nothing(rest)?;
        Ok(self.settings.of_macro(name).is_some())
    }
}

fn branch_mark(read: bool, taken: bool) -> u8 {
    match (read, taken) {
        (false, _) => mark::UNREAD,
        (true, false) => mark::NOT_TAKEN,
        (true, true) => mark::TAKEN,
    }
}

/// Only blanks and a comment may be here.
fn check_nothing(text: &[u8]) -> Result<(), Refusal> {
    match skip_blanks(text) {
        [] | [b'#', ..] => Ok(()),
        _ => Err(ARGUMENT),
    }
}
