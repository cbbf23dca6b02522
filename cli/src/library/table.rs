//! Tables of settings.

use bindings::kind;

use super::{single_token, token, Value};

/// The refusal number of a table, if it has one.
pub fn check_table(table: &[u8]) -> Option<u8> {
    let refusal = bindings::table(table);
    (refusal != 0).then_some(refusal)
}

/// Whether a name is a PCD's; otherwise it is a macro's.
pub fn is_pcd(name: &[u8]) -> bool {
    single_token(name).is_some_and(|token| token.code == token::PCD)
}

/// The value of a name in a table; a malformed table has none.
pub fn lookup<'a>(table: &'a [u8], name: &[u8]) -> Option<Value<'a>> {
    let mut out = [0; 3];
    if bindings::lookup(table, name, &mut out) != 0 {
        return None;
    }
    let [found, number_or_start, len] = out;
    let string = || &table[number_or_start as usize..][..len as usize];
    match found {
        kind::NUMBER => Some(Value::Number(number_or_start)),
        kind::STRING => Some(Value::String(string())),
        kind::WIDE => Some(Value::Wide(string())),
        _ => None,
    }
}
