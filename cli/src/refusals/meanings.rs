//! Refusal numbers in words.

/// What a refusal number means.
pub fn refusal(number: u8) -> &'static str {
    match number {
        1 => "the table of settings is malformed",
        2 => "the expression is longer than 1,024 bytes",
        3 => "no token can be read at some byte",
        4 => "a number literal is above 2^64 - 1",
        5 => "something follows token 200",
        6 => "at some token `(` outnumber `)` by more than 16",
        7 => "the tokens form no expression",
        8 => "`|` or `||` stands outside parentheses",
        9 => "a PCD is not in the table",
        10 => "an operator does not take operands of these kinds",
        11 => "a result is below 0 or above 2^64 - 1",
        12 => "zero divisor",
        13 => "a condition has to be the number 0 or the number 1",
        14 => "the file is longer than 65,536 bytes",
        15 => "the file has more than 4,096 lines",
        16 => "there are fewer marks than lines",
        17 => "the line is longer than 1,024 bytes",
        18 => "unknown directive",
        19 => "the directive has no open `!if`, or comes after its `!else`",
        20 => "16 groups are open already",
        21 => "this `!if` is still open at the end of the file",
        22 => "the text after the line's word is not what it takes",
        23 => "unknown datum type",
        24 => "the value's kind does not suit the datum type",
        25 => "the number is too large for the datum type",
        26 => "the buffer is shorter than the field",
        27 => "DEFINE lines set more than 64 macros",
        28 => "DEFINE sets a string of more than 56 bytes",
        _ => "unknown refusal",
    }
}
