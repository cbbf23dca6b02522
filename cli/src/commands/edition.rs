//! The edition in which a run reads its input.

use super::request::Request;
use crate::library::Edition;
use crate::terminal::{escaped, Error};

/// The words after --edition.
pub static EDITIONS: [(&str, Edition); 2] = [("old", Edition::Old), ("new", Edition::New)];

/// The edition that a request names. Without one it is the old one, which accepts all that the new one accepts, with the same answers.
pub fn edition(request: &Request) -> Result<Edition, Error> {
    let Some(word) = request.one("--edition") else {
        return Ok(Edition::Old);
    };
    let found = EDITIONS.iter().find(|(name, _)| name.as_bytes() == word);
    found.map(|(_, edition)| *edition).ok_or_else(|| {
        let word = escaped(word);
        Error::Usage(format!("unknown edition {word}: it is old or new"))
    })
}
