//! Times whole processes over one file: the command, and unifdef and cpp over the same lines in C's syntax, where these are installed.
//! A process is counted from its start to its end, with the reading of what it writes into a pipe.

use std::ffi::OsString;
use std::io::ErrorKind;
use std::path::Path;
use std::process::{Command, Stdio};

use bindings::limit::RECORD_BYTES;

use crate::files;
use crate::folder::Folder;
use crate::settings;
use crate::timing::{medians, ratio, ROUNDS};

/// In what a tool's output has to agree with the command's.
#[derive(Clone, Copy)]
enum Same {
    Bytes,
    /// cpp removes and adds blank lines; the files have none.
    LinesNotBlank,
    Nothing,
}

/// A program with its arguments, and a few words that describe it.
struct Tool {
    what: &'static str,
    program: OsString,
    arguments: Vec<String>,
    same: Same,
}

pub fn time(command: &Path) {
    let folder = Folder::new();
    folder.write("settings.txt", settings::text(files::SET).as_bytes());
    folder.write(
        "settings.bin",
        &settings::table()[..files::SET * RECORD_BYTES],
    );
    let definitions = settings::in_c(files::SET, files::NAMED);
    folder.write("settings.h", definitions.as_bytes());
    let (installed, missing): (Vec<Tool>, Vec<Tool>) =
        others().into_iter().partition(Tool::is_installed);
    // The command comes first and is always there: the others are compared with it.
    let tools: Vec<Tool> = own(command).into_iter().chain(installed).collect();
    for file in files::both() {
        folder.write("file.dsc", file.as_bytes());
        folder.write("file.c", files::in_c(&file).as_bytes());
        println!("whole processes: {}", files::described(&file, files::SET));
        check(&tools, folder.path());
        time_all(&tools, folder.path());
    }
    for tool in missing {
        println!("  {:<30} not installed", tool.what);
    }
}

#[rustfmt::skip]
fn own(command: &Path) -> [Tool; 3] {
    [
        Tool::new("korzhinay select -s SETTINGS", command, "select -s settings.txt file.dsc", Same::Bytes),
        Tool::new("the same, --quiet", command, "select --quiet -s settings.txt file.dsc", Same::Bytes),
        Tool::new("korzhinay select -t TABLE", command, "select -t settings.bin file.dsc", Same::Bytes),
    ]
}

/// unifdef gets a definition or -U for every name, or it would leave directives as they are; with -x2 its exit status is 0 if it
/// changed something.
#[rustfmt::skip]
fn others() -> [Tool; 4] {
    let options = settings::options(files::SET, files::NAMED).join(" ");
    [
        Tool::new("unifdef -f DEFINITIONS", "unifdef", "-x2 -f settings.h file.c", Same::Bytes),
        Tool::new("unifdef -D.. -U..", "unifdef", &format!("-x2 {options} file.c"), Same::Bytes),
        Tool::new("cpp -P -include DEFINITIONS", "cpp", "-P -include settings.h file.c", Same::LinesNotBlank),
        Tool::new("true, which does nothing", "true", "", Same::Nothing),
    ]
}

impl Tool {
    fn new(what: &'static str, program: impl Into<OsString>, arguments: &str, same: Same) -> Tool {
        Tool {
            what,
            program: program.into(),
            arguments: arguments.split_whitespace().map(str::to_string).collect(),
            same,
        }
    }

    fn is_installed(&self) -> bool {
        let outcome = Command::new(&self.program).stdin(Stdio::null()).output();
        !outcome.is_err_and(|error| error.kind() == ErrorKind::NotFound)
    }

    /// What it writes.
    fn run(&self, folder: &Path) -> Vec<u8> {
        let output = Command::new(&self.program)
            .args(&self.arguments)
            .current_dir(folder)
            // cargo sets it for what it runs, and a search for a shared library would try its folders first
            .env_remove("LD_LIBRARY_PATH")
            .stdin(Stdio::null())
            .output()
            .unwrap_or_else(|error| panic!("{}: {error}", self.what));
        let said = String::from_utf8_lossy(&output.stderr);
        assert!(
            output.status.success(),
            "{}: {}\n{said}",
            self.what,
            output.status
        );
        output.stdout
    }
}

impl Same {
    fn holds(self, kept: &[u8], other: &[u8]) -> bool {
        match self {
            Same::Bytes => other == kept,
            Same::LinesNotBlank => lines_not_blank(other).eq(lines_not_blank(kept)),
            Same::Nothing => true,
        }
    }

    fn words(self) -> &'static str {
        match self {
            Same::Bytes => "; writes the same bytes",
            Same::LinesNotBlank => "; writes the same lines, blank ones left out",
            Same::Nothing => "",
        }
    }
}

fn lines_not_blank(text: &[u8]) -> impl Iterator<Item = &[u8]> {
    text.split(|&byte| byte == b'\n')
        .filter(|line| !line.is_empty())
}

/// Checks that all tools keep the same lines, and at least one.
fn check(tools: &[Tool], folder: &Path) {
    let kept = tools[0].run(folder);
    assert!(!kept.is_empty());
    for tool in tools {
        let same = tool.same.holds(&kept, &tool.run(folder));
        assert!(same, "{} keeps other lines", tool.what);
    }
}

fn time_all(tools: &[Tool], folder: &Path) {
    let mut works: Vec<_> = tools.iter().map(|tool| || drop(tool.run(folder))).collect();
    let mut works: Vec<&mut dyn FnMut()> = works.iter_mut().map(|work| work as _).collect();
    let times = medians(ROUNDS, &mut works);
    for (tool, &time) in tools.iter().zip(&times) {
        println!(
            "  {:<30} {:>8.1} µs, select -s takes {:.2} of it{}",
            tool.what,
            time.as_secs_f64() * 1e6,
            ratio(times[0], time),
            tool.same.words()
        );
    }
}
