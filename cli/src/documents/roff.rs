//! Text in the language of man pages.

/// Text as it is.
pub fn plain(text: &str) -> String {
    text.replace('\\', "\\e").replace('-', "\\-")
}

/// A form of an option, or the usage of a subcommand: words in capitals in italics, options in bold.
pub fn usage(text: &str) -> String {
    let mut made = String::new();
    let mut rest = text;
    while let Some(first) = rest.chars().next() {
        let (len, font) = match first {
            '-' => (
                1 + run(&rest[1..], |c| c.is_ascii_alphabetic() || c == '-'),
                Some('B'),
            ),
            'A'..='Z' => (run(rest, |c| c.is_ascii_uppercase()), Some('I')),
            _ => (first.len_utf8(), None),
        };
        let (word, after) = rest.split_at(len);
        made += &match font {
            Some(font) => format!("\\f{font}{}\\fR", plain(word)),
            None => plain(word),
        };
        rest = after;
    }
    made
}

/// Running text, one sentence per line; options in bold, and the names of values in italics.
pub fn prose(text: &str, values: &[&str]) -> String {
    let word = |word: &str| {
        let bare = word.trim_end_matches([',', ';', ':', '.']);
        let end = plain(&word[bare.len()..]);
        match bare {
            "-" => format!("\\fB\\-\\fR{end}"),
            _ if bare.starts_with('-') => format!("\\fB{}\\fR{end}", plain(bare)),
            _ if values.contains(&bare) => format!("\\fI{bare}\\fR{end}"),
            _ => plain(word),
        }
    };
    let sentence = |text: &str| {
        let words: Vec<String> = text.split_whitespace().map(word).collect();
        words.join(" ")
    };
    let sentences: Vec<String> = text.split_inclusive(". ").map(sentence).collect();
    sentences.join("\n") + "\n"
}

/// How many bytes a text begins with that are so.
fn run(text: &str, is_so: impl Fn(char) -> bool) -> usize {
    text.find(|c| !is_so(c)).unwrap_or(text.len())
}
