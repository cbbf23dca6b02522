//! The refusal numbers (document 01, Refusal numbers), and a refusal with its
//! place (document 02, order 3).

/// A refusal's number, and for 3 to 12 the place that it is about: a byte
/// counted from the start of the expression, or of the line in a selection.
#[derive(Clone, Copy, Debug, PartialEq, Eq)]
pub struct Refusal {
    pub number: u8,
    pub place: Option<usize>,
}

impl Refusal {
    /// A refusal that is about a whole table, file, line, value or buffer.
    pub const fn nowhere(number: u8) -> Refusal {
        Refusal {
            number,
            place: None,
        }
    }

    pub fn at(number: u8, place: usize) -> Refusal {
        Refusal {
            number,
            place: Some(place),
        }
    }

    /// The same refusal, its place counted from `bytes` bytes further left.
    pub fn after(self, bytes: usize) -> Refusal {
        Refusal {
            place: self.place.map(|place| bytes + place),
            ..self
        }
    }

    /// The offset that it carries, which is 0 where it has no place.
    pub fn offset(self) -> usize {
        self.place.unwrap_or(0)
    }
}

/// The table breaks one of its rules.
pub const TABLE: u8 = 1;
/// The expression has more than 1,024 bytes.
pub const EXPRESSION_LENGTH: u8 = 2;
/// A token is spelled wrongly, or a byte begins no token.
pub const TOKEN: u8 = 3;
/// A number literal does not fit 64 bits.
pub const LITERAL: u8 = 4;
/// Something other than blanks and a comment comes after token 200.
pub const TOKEN_COUNT: u8 = 5;
/// At some token the `(` outnumber the `)` by more than 16.
pub const DEPTH: u8 = 6;
/// The tokens form no expression.
pub const GRAMMAR: u8 = 7;
/// A `|` or `||` is outside all parentheses. No condition meets this, but a
/// DEFINE line may.
pub const BAR: u8 = 8;
/// A PCD is named that the table does not hold.
pub const PCD: u8 = 9;
/// An operator got operands of kinds it does not take.
pub const KIND: u8 = 10;
/// A result is below 0 or does not fit 64 bits.
pub const RANGE: u8 = 11;
/// A division or remainder by 0.
pub const DIVISOR: u8 = 12;
/// A condition is neither 0 nor 1.
pub const CONDITION: u8 = 13;
/// The file has more than 65,536 bytes.
pub const FILE_LENGTH: u8 = 14;
/// The file has more than 4,096 lines.
pub const LINE_COUNT: u8 = 15;
/// There are fewer mark bytes than lines.
pub const MARKS: u8 = 16;
/// A line has more than 1,024 bytes before its end.
pub const LINE_LENGTH: u8 = 17;
/// The word after `!` is none of the known ones.
pub const WORD: u8 = 18;
/// A directive has no open group, or comes too late in it.
pub const NESTING: u8 = 19;
/// A 17th group is opened inside 16 open ones.
pub const GROUPS: u8 = 20;
/// The file ends inside a group.
pub const OPEN_END: u8 = 21;
/// The text after the word of a read directive or of a kept DEFINE line has
/// the wrong form.
pub const ARGUMENT: u8 = 22;
/// The datum code is none of the known ones.
pub const DATUM: u8 = 23;
/// The value's kind does not go into the datum.
pub const DATUM_KIND: u8 = 24;
/// The number is too large for the datum.
pub const DATUM_RANGE: u8 = 25;
/// The field does not fit into the buffer.
pub const BUFFER: u8 = 26;
/// DEFINE lines set a 65th macro.
pub const DEFINED_COUNT: u8 = 27;
/// A DEFINE line sets a string of more than 56 bytes.
pub const DEFINED_LENGTH: u8 = 28;

/// A few words for a number, for reports.
pub fn meaning(number: u8) -> &'static str {
    match number {
        TABLE => "malformed table",
        EXPRESSION_LENGTH => "expression too long",
        TOKEN => "bad token",
        LITERAL => "literal too large",
        TOKEN_COUNT => "too many tokens",
        DEPTH => "too many open parentheses",
        GRAMMAR => "no derivation",
        BAR => "bar outside parentheses",
        PCD => "missing PCD",
        KIND => "kinds do not suit",
        RANGE => "result out of range",
        DIVISOR => "zero divisor",
        CONDITION => "condition neither 0 nor 1",
        FILE_LENGTH => "file too long",
        LINE_COUNT => "too many lines",
        MARKS => "too few marks",
        LINE_LENGTH => "line too long",
        WORD => "unknown directive",
        NESTING => "directive out of place",
        GROUPS => "too many open groups",
        OPEN_END => "group still open at the end",
        ARGUMENT => "malformed text after the word",
        DATUM => "unknown datum code",
        DATUM_KIND => "kind does not suit the datum",
        DATUM_RANGE => "number too large for the datum",
        BUFFER => "field buffer too short",
        DEFINED_COUNT => "too many macros set by DEFINE",
        DEFINED_LENGTH => "string too long for DEFINE",
        _ => "no such refusal",
    }
}
