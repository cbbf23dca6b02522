//! The options of all subcommands: the one description that the parser, --help, the man page and the completion use.

/// An option.
pub struct OptionSpec {
    /// The long form, by which the code names it.
    pub long: &'static str,
    /// The short form; empty if there is none.
    pub short: &'static str,
    /// The value that follows it; empty if none does.
    pub value: &'static str,
    pub completion: Completion,
    /// What it does, for --help.
    pub about: &'static str,
    /// What it does, for the man page.
    pub manual: &'static str,
}

/// What a shell offers for the value of an option.
#[derive(Clone, Copy)]
pub enum Completion {
    Nothing,
    Files,
    DatumTypes,
    Editions,
}

use Completion::{DatumTypes, Editions, Files, Nothing};

/// Every option that some subcommand takes, in the order in which they are listed.
pub static OPTIONS: [OptionSpec; 16] = [
    OptionSpec {
        long: "--define",
        short: "-D",
        value: "NAME[=VALUE]",
        completion: Nothing,
        about: "sets NAME, over -s and -t; to 1 without a VALUE",
        manual: "A setting, as described below. NAME alone sets 1. A DEFINE line of a file wins over it. May be repeated.",
    },
    OptionSpec {
        long: "--undefine",
        short: "-U",
        value: "NAME",
        completion: Nothing,
        about: "leaves NAME unset, and says that it is meant to be",
        manual: "Leaves the macro or the PCD of this name unset, whatever set it before; it need not be set. It also says that \
                 the name is meant to be unset, so no note is given for it. A later -D of the same name sets it again, and a DEFINE \
                 line of a file does. May be repeated.",
    },
    OptionSpec {
        long: "--settings",
        short: "-s",
        value: "SETTINGS",
        completion: Files,
        about: "reads a file of settings, one NAME=VALUE per line, over -t",
        manual: "A file of settings, one per line, as described below. May be repeated.",
    },
    OptionSpec {
        long: "--table",
        short: "-t",
        value: "TABLE",
        completion: Files,
        about: "starts from a ready table, records of 128 bytes",
        manual: "A ready table, as described below.",
    },
    OptionSpec {
        long: "--edition",
        short: "",
        value: "old|new",
        completion: Editions,
        about: "the edition of the language; old, the default, accepts all that new does, with the same answers",
        manual: "The edition of the language, as described below. old is the default: whatever the new edition accepts, the old one \
                 accepts with the same answer, and the files that exist use what only the old one accepts.",
    },
    OptionSpec {
        long: "--output",
        short: "-o",
        value: "OUT",
        completion: Files,
        about: "writes to OUT, whole or not at all; - is standard output",
        manual: "What would go to standard output goes to OUT; of table it is the records instead of the list. - is standard \
                 output. An existing file is replaced as a whole, or stays as it is. For select an OUT that is one of the files \
                 which the run reads is an error.",
    },
    OptionSpec {
        long: "--datum",
        short: "",
        value: "TYPE",
        completion: DatumTypes,
        about: "the datum type: VOID*, BOOLEAN, UINT8, UINT16, UINT32 or UINT64",
        manual: "The datum type of a field: VOID*, BOOLEAN, UINT8, UINT16, UINT32 or UINT64.",
    },
    OptionSpec {
        long: "--annotate",
        short: "",
        value: "",
        completion: Nothing,
        about: "shows every line with its number and its mark",
        manual: "Shows every line: its number in four places, its mark, a bar, and its text, as described below for terminals. On a \
                 terminal lines with the marks 0 and 2 are dimmed.",
    },
    OptionSpec {
        long: "--marks",
        short: "",
        value: "",
        completion: Nothing,
        about: "prints the marks alone, one per line",
        manual: "Prints the marks alone, one per line.",
    },
    OptionSpec {
        long: "--keep-lines",
        short: "",
        value: "",
        completion: Nothing,
        about: "prints an empty line for each line that is not kept, so that line numbers stay",
        manual: "Prints an empty line for each line that is not kept, with its own line end, LF or CR LF. So a kept line has \
                 the same number as in FILE.",
    },
    OptionSpec {
        long: "--json",
        short: "",
        value: "",
        completion: Nothing,
        about: "prints one JSON object, also if something is refused",
        manual: "Prints one JSON object, as described below, also if something is refused.",
    },
    OptionSpec {
        long: "--warn-old",
        short: "",
        value: "",
        completion: Nothing,
        about: "notes each place that the new edition would refuse; with --edition new there is none",
        manual: "Gives a note for each bare word, and for each $(NAME) after !ifdef or !ifndef, that is read and that the new edition \
                 would refuse, with what to write instead. With --edition new there is nothing to note.",
    },
    OptionSpec {
        long: "--quiet",
        short: "",
        value: "",
        completion: Nothing,
        about: "gives no notes and no summary",
        manual: "Gives no notes and no summary. Refusals and errors are printed all the same.",
    },
    OptionSpec {
        long: "--strict",
        short: "",
        value: "",
        completion: Nothing,
        about: "takes a note for a failure: nothing is written, status 1",
        manual: "If there is any note, nothing is written to standard output or OUT, a last line on standard error says so, and \
                 the status is 1. --quiet and --strict exclude each other.",
    },
    OptionSpec {
        long: "--help",
        short: "-h",
        value: "",
        completion: Nothing,
        about: "prints this",
        manual: "Prints what the command or the subcommand takes, with an example.",
    },
    OptionSpec {
        long: "--version",
        short: "",
        value: "",
        completion: Nothing,
        about: "prints the version",
        manual: "Prints the version; without a subcommand only.",
    },
];

/// The options that may be given more than once.
pub const REPEATABLE: [&str; 3] = ["--define", "--undefine", "--settings"];

impl OptionSpec {
    /// The form in which messages name it.
    pub fn word(&self) -> &'static str {
        match self.short {
            "" => self.long,
            short => short,
        }
    }

    /// The form before a value: `-D NAME[=VALUE]`, `--datum TYPE`, `--json`.
    pub fn shown(&self) -> String {
        format!("{} {}", self.word(), self.value).trim_end().into()
    }

    /// The value that is attached to a word of this option, as in `--datum=TYPE` and `-sFILE`; empty if the word is the option alone. A
    /// word of another option is none.
    pub fn attached<'a>(&self, word: &'a [u8]) -> Option<Attached<'a>> {
        if word == self.long.as_bytes() || word == self.short.as_bytes() {
            return Some(Attached::Nothing);
        }
        let long = word.strip_prefix(self.long.as_bytes());
        if let Some(value) = long.and_then(|rest| rest.strip_prefix(b"=")) {
            return Some(Attached::Value(value));
        }
        match self.short {
            "" => None,
            short => word
                .strip_prefix(short.as_bytes())
                .filter(|_| !self.value.is_empty())
                .map(Attached::Value),
        }
    }
}

/// What a word of an option has after the option.
pub enum Attached<'a> {
    Nothing,
    Value(&'a [u8]),
}

/// Whether a word looks like an option: one of any subcommand, its value attached or not, or a misspelled long one. It is more likely that
/// the expression is missing than that it begins so; after `--` it may.
pub fn is_option(word: &[u8]) -> bool {
    match word {
        [b'-', b'-', b'a'..=b'z', ..] => true,
        _ => OPTIONS.iter().any(|option| option.attached(word).is_some()),
    }
}
