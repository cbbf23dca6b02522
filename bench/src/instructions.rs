//! Counts the instructions of one call with valgrind's callgrind; of several calls it shows the mean. A count is the same in every run
//! on one machine, whatever else it does. Only the call itself counts: callgrind collects inside that function.

use std::io::ErrorKind;
use std::path::Path;
use std::process::{exit, Command, Stdio};
use std::{env, fs};

use crate::{evaluation, selection, tables, tokens};

/// What to count: the name of its profile, what it is, the function, another that calls it, and how often it does.
struct Counted {
    name: &'static str,
    what: &'static str,
    function: &'static str,
    call: fn(),
    calls: u64,
}

const COUNTED: [Counted; 15] = [
    Counted {
        name: "tokens",
        what: "tokens of a long expression (682 bytes)",
        function: "korzhinay_tokens",
        call: tokens::once,
        calls: 1,
    },
    Counted {
        name: "table",
        what: "check of a table of 500 records",
        function: "korzhinay_table",
        call: tables::once,
        calls: 1,
    },
    Counted {
        name: "lookup",
        what: "that check and a lookup of the last name",
        function: "korzhinay_lookup",
        call: tables::once_last,
        calls: 1,
    },
    Counted {
        name: "lookup1",
        what: "a lookup without the check, a table of 1 record",
        function: "lookup::lookup",
        call: || tables::once_each(1),
        calls: 1,
    },
    Counted {
        name: "lookup8",
        what: "a lookup without the check, a table of 8 records",
        function: "lookup::lookup",
        call: || tables::once_each(8),
        calls: 8,
    },
    Counted {
        name: "lookup50",
        what: "a lookup without the check, a table of 50 records",
        function: "lookup::lookup",
        call: || tables::once_each(50),
        calls: 50,
    },
    Counted {
        name: "lookup500",
        what: "a lookup without the check, a table of 500 records",
        function: "lookup::lookup",
        call: || tables::once_each(500),
        calls: 500,
    },
    Counted {
        name: "unset",
        what: "`$(X) == TRUE`, an empty table",
        function: "korzhinay_evaluate",
        call: evaluation::once_unset,
        calls: 1,
    },
    Counted {
        name: "equal",
        what: "`$(X) == TRUE`, a table of 1 record",
        function: "korzhinay_evaluate",
        call: evaluation::once_equal,
        calls: 1,
    },
    Counted {
        name: "ten",
        what: "ten operators, a table of 1 record",
        function: "korzhinay_evaluate",
        call: evaluation::once_ten,
        calls: 1,
    },
    Counted {
        name: "select",
        what: "selection: 64 KiB, 4000 lines, 1000 directives, 50 settings",
        function: "korzhinay_select",
        call: || selection::once(50),
        calls: 1,
    },
    Counted {
        name: "select8",
        what: "selection: 64 KiB, 4000 lines, 1000 directives, 8 settings",
        function: "korzhinay_select",
        call: || selection::once(8),
        calls: 1,
    },
    Counted {
        name: "select500",
        what: "selection: 64 KiB, 4000 lines, 1000 directives, 500 settings",
        function: "korzhinay_select",
        call: selection::once_spread,
        calls: 1,
    },
    Counted {
        name: "half",
        what: "selection: 32 KiB, 2000 lines, 500 directives, 50 settings",
        function: "korzhinay_select",
        call: selection::once_half,
        calls: 1,
    },
    Counted {
        name: "calm",
        what:
            "selection: 62 KiB, 4000 lines, 1000 directives, 50 settings, each first branch taken",
        function: "korzhinay_select",
        call: selection::once_calm,
        calls: 1,
    },
];

/// Makes the call of that name.
pub fn call(name: &str) {
    let counted = COUNTED.iter().find(|counted| counted.name == name);
    (counted.expect("the name of a call").call)();
}

/// Counts all calls, and leaves a profile of each in the folder.
pub fn count(folder: &Path) {
    fs::create_dir_all(folder).expect("a folder for the profiles");
    let counts = COUNTED.each_ref().map(|counted| counted.count(folder));
    println!("| instructions of one call | |\n|---|---|");
    for (counted, count) in COUNTED.iter().zip(counts) {
        println!("| {} | {} |", counted.what, in_thousands(count));
    }
    println!(
        "\nWhere they go, function by function: callgrind_annotate --auto=no {}",
        folder.join("NAME").display()
    );
    let names: Vec<&str> = COUNTED.iter().map(|counted| counted.name).collect();
    println!("NAME is one of: {}", names.join(", "));
}

impl Counted {
    fn count(&self, folder: &Path) -> u64 {
        let profile = folder.join(self.name);
        let run = Command::new("valgrind")
            .arg("--tool=callgrind")
            .arg(format!("--toggle-collect={}", self.function))
            .arg(format!("--callgrind-out-file={}", profile.display()))
            .arg(env::current_exe().expect("the path of this program"))
            .args(["--once", self.name])
            .stdin(Stdio::null())
            .output();
        let output = match run {
            Err(error) if error.kind() == ErrorKind::NotFound => missing(),
            run => run.expect("valgrind runs"),
        };
        let message = String::from_utf8_lossy(&output.stderr);
        assert!(output.status.success(), "{}: {message}", self.name);
        let text = fs::read_to_string(&profile).expect("a profile");
        let counts = text.lines().find_map(|line| line.strip_prefix("totals: "));
        let count: u64 = counts
            .and_then(|count| count.trim().parse().ok())
            .expect("a count in the profile");
        assert!(count > 0, "{}: nothing was collected", self.name);
        count / self.calls
    }
}

fn missing() -> ! {
    eprintln!("valgrind is not installed; on Debian it is the package valgrind");
    exit(1)
}

fn in_thousands(count: u64) -> String {
    let digits = count.to_string();
    let mut text = String::new();
    for (index, digit) in digits.chars().enumerate() {
        if index > 0 && (digits.len() - index).is_multiple_of(3) {
            text.push(',');
        }
        text.push(digit);
    }
    text
}
