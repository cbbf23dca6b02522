//! The description file that is timed, and the same lines in C's syntax for tools that read that: groups of 16 lines, 4 of them
//! directives, with plain lines that fill it to its size.

/// Lines of a group, and how many of them are directives; after each come equally many plain lines.
const GROUP: usize = 16;
const DIRECTIVES: usize = 4;
const PLAIN: usize = GROUP - DIRECTIVES;

/// Lines and bytes of the larger file; the smaller one has half of both.
const LINES: usize = 4_000;
const BYTES: usize = 65_536;

/// How many names are set, and how many are used: some of these are not set.
pub const SET: usize = 50;
pub const NAMED: usize = 60;

/// The larger file and the smaller one.
pub fn both() -> [String; 2] {
    [1, 2].map(|part| file(LINES / part, BYTES / part))
}

/// A file and how many settings there are, in a few words.
pub fn described(file: &str, set: usize) -> String {
    let directives = file.lines().filter(|line| line.starts_with('!')).count();
    format!(
        "{} KiB, {} lines, {directives} directives, {set} settings",
        file.len() / 1_024,
        file.lines().count()
    )
}

/// A file of this many lines, a multiple of 16, and this many bytes. Each plain line has its number, so that no two are equal.
fn file(lines: usize, bytes: usize) -> String {
    let groups = lines / GROUP;
    let mut text = String::new();
    for group in 0..groups {
        let directives = directives_of(group);
        let taken: usize = directives.iter().map(|line| line.len() + 1).sum();
        let left = bytes * (group + 1) / groups - text.len() - taken;
        for (index, directive) in directives.iter().enumerate() {
            text += directive;
            text.push('\n');
            let first = index * PLAIN / DIRECTIVES;
            for line in first..first + PLAIN / DIRECTIVES {
                let end = left * (line + 1) / PLAIN - left * line / PLAIN;
                let number = group * PLAIN + line;
                text += &format!("{number:-<width$}\n", width = end - 1);
            }
        }
    }
    text
}

/// A file whose first branches are all taken, so that one condition of each group is read: three in five are expressions.
pub fn calm() -> String {
    let mut text = String::new();
    for group in 0..LINES / GROUP {
        let name = group % SET;
        let open = match group % 5 {
            0..=2 => format!("!if $(SETTING_{name:04}) == {name}"),
            _ => format!("!ifdef SETTING_{name:04}"),
        };
        let next = format!("!elseif $(SETTING_{name:04}) < {}", group % 7);
        for directive in [open, next, "!else".to_string(), "!endif".to_string()] {
            text += &format!("{directive}\n");
            for _ in 0..PLAIN / DIRECTIVES {
                text += &format!("{:-<12}{group:03}\n", "");
            }
        }
    }
    text
}

/// The directives of a group. Some branches are taken, some not; a few names are not set.
fn directives_of(group: usize) -> [String; DIRECTIVES] {
    let (one, other) = (group % SET, group * 7 % SET);
    let open = match group % 5 {
        4 => format!("!ifdef SETTING_{:04}", group % NAMED),
        _ => format!("!if $(SETTING_{one:04}) == {other}"),
    };
    let next = format!("!elseif $(SETTING_{other:04}) < {one}");
    [open, next, "!else".to_string(), "!endif".to_string()]
}

/// The same lines in C's syntax, with the same outcome: plain lines as they are, and names without `$()`.
pub fn in_c(file: &str) -> String {
    let line_in_c = |line: &str| match line.strip_prefix('!') {
        None => format!("{line}\n"),
        Some(directive) => {
            let directive = directive
                .replace("elseif", "elif")
                .replace(['$', '(', ')'], "");
            format!("#{directive}\n")
        }
    };
    file.lines().map(line_in_c).collect()
}
