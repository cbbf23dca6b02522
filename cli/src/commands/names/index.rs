//! All names of some files, with the places of each.

use std::collections::BTreeMap;

use crate::description::{define, mentions, Sort};
use crate::examined::Examined;
use crate::library::Terms;
use crate::scope::Scope;

/// The names in the order of their bytes.
pub struct Index<'a>(pub BTreeMap<(&'a [u8], Sort), Name>);

/// What the files have of a name.
#[derive(Default)]
pub struct Name {
    /// Where it is named.
    pub places: Vec<Place>,
    /// Where a `DEFINE` sets it, or would if it were kept, and the record that it sets.
    pub defined: Vec<(Place, Option<Vec<u8>>)>,
}

/// A place where a name is.
pub struct Place {
    /// Which of the files.
    pub file: usize,
    pub line: usize,
    pub column: usize,
    /// Whether its line is read, if that is known.
    pub is_read: Option<bool>,
}

impl<'a> Index<'a> {
    pub fn new(files: &'a [Examined], terms: Terms) -> Index<'a> {
        let mut names: BTreeMap<_, Name> = BTreeMap::new();
        for (file, examined) in files.iter().enumerate() {
            let mut scope = Scope::new(terms);
            for (line, is_read, text) in examined.numbered() {
                let place = |offset| Place {
                    file,
                    line,
                    column: offset + 1,
                    is_read,
                };
                for mention in mentions(text) {
                    let name = names.entry((mention.name, mention.sort)).or_default();
                    name.places.push(place(mention.offset));
                }
                if let Some(Ok(found)) = define(text) {
                    let is_obeyed = is_read == Some(true);
                    let record = is_obeyed.then(|| scope.obey(line, text)).flatten();
                    let name = names.entry((found.name, Sort::Macro)).or_default();
                    let record = record.map(<[u8]>::to_vec);
                    name.defined.push((place(found.name_at), record));
                }
            }
        }
        Index(names)
    }
}
