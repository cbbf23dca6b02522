//! `DEFINE` lines, as messages speak of them.

use super::brief::brief;
use super::unquoted::ELSEWHERE;
use crate::description::{macro_name, Slip};
use crate::library::limit::{MAX_DEFINED, MAX_NAME_BYTES};
use crate::library::{evaluate, is_pcd, Terms, Value};

/// The shape of a line, and what this one does not have of it (22).
pub fn malformed(slip: &Slip) -> String {
    let missing = match slip {
        Slip::NoBlank => "no blank follows `DEFINE`".into(),
        Slip::NoName(b"") => "no macro name follows `DEFINE`".into(),
        Slip::NoName(found) => no_name(found),
        Slip::LongName(name) => format!(
            "the name has {} bytes, and at most {MAX_NAME_BYTES} are allowed",
            name.len()
        ),
        Slip::NoEquals(name) => format!("no `=` follows {}", brief(name)),
    };
    format!("write `DEFINE NAME = expression`: {missing}")
}

/// What is there instead of a macro's name.
fn no_name(found: &[u8]) -> String {
    let shown = brief(found);
    match macro_name(found) {
        Some(name) => format!("the name is {}, without `$(` and `)`", brief(name)),
        None if is_pcd(found) => {
            format!("{shown} is a PCD, which is set with -D or -s; `DEFINE` sets macros only")
        }
        None => format!("`{shown}` is no macro name, which is A-Z, then A-Z, 0-9 and _"),
    }
}

/// What to do about a second `=`, which starts the expression (3).
pub fn second_equals(expression: &[u8]) -> Option<String> {
    let is_second = expression.starts_with(b"=");
    is_second.then(|| "`DEFINE` takes one `=`; `==` compares".into())
}

/// What to do about a macro that is one too many (27).
pub fn too_many(name: &[u8]) -> String {
    let name = brief(name);
    format!(
        "the lines above set {MAX_DEFINED} others, so {name} is one too many; move the lines of macros that no condition uses \
         {ELSEWHERE}"
    )
}

/// What to do about a string that is too long (28).
pub fn too_long(name: &[u8], expression: &[u8], terms: Terms) -> Option<String> {
    let length = match evaluate(expression, terms).ok()?.value {
        Value::Number(_) => return None,
        Value::String(string) | Value::Wide(string) => string.len(),
    };
    let name = brief(name);
    Some(format!("it has {length} bytes; if a condition uses {name}, shorten it; if not, move the line {ELSEWHERE}"))
}
