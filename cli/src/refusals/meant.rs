//! What a word without quotes may be meant for.

use super::brief::brief;
use crate::library::{lookup, single_token, Terms};

/// What a message goes on with after a bare word: the word of expressions that it is in capitals, or the macro of its name that is set.
pub fn meant(word: &[u8], terms: Terms) -> String {
    let case = capitals(word).map(|capitals| format!("; case matters: `{capitals}`"));
    let is_set = lookup(terms.table, word).is_some();
    let set = is_set.then(|| format!("; $({}) is set", brief(word)));
    case.or(set).unwrap_or_default()
}

/// A word in capitals, if it is a word of expressions then.
pub fn capitals(word: &[u8]) -> Option<String> {
    let capitals = word.to_ascii_uppercase();
    single_token(&capitals).map(|_| brief(&capitals))
}
