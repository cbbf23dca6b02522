//! The completion for bash.

use crate::commands::datum::DATUM_TYPES;
use crate::commands::edition::EDITIONS;
use crate::commands::options::{Completion, OptionSpec, OPTIONS};
use crate::commands::subcommand::{Operand, Subcommand};
use crate::commands::SUBCOMMANDS;

/// What does not depend on the options. bash breaks `--datum=TYPE` into three words.
const SCRIPT: &str = r#"# Completion of korzhinay for bash. It is made from the command's own description of its options.

_korzhinay_files() {
    compopt -o filenames 2>/dev/null
    mapfile -t COMPREPLY < <(compgen -f -- "$1")
}

_korzhinay_words() {
    mapfile -t COMPREPLY < <(compgen -W "$2" -- "$1")
}

_korzhinay() {
    local word=${COMP_WORDS[COMP_CWORD]} before=${COMP_WORDS[COMP_CWORD - 1]} options='' operand='' given
    COMPREPLY=()
    if [ "$COMP_CWORD" -eq 1 ]; then
        _korzhinay_words "$word" '@FIRST@'
        return
    fi
    if [ "$word" = '=' ]; then
        word=''
    elif [ "$before" = '=' ]; then
        before=${COMP_WORDS[COMP_CWORD - 2]}
    fi
    case ${COMP_WORDS[1]} in
@SUBCOMMANDS@    help)
        [ "$COMP_CWORD" -ne 2 ] || _korzhinay_words "$word" '@NAMES@'
        return
        ;;
    esac
    for given in "${COMP_WORDS[@]:2:COMP_CWORD - 2}"; do
        if [ "$given" = '--' ]; then
            [ "$operand" != files ] || _korzhinay_files "$word"
            return
        fi
    done
    case " $options " in
    *" $before "*)
        case $before in
@VALUES@        esac
        ;;
    esac
    case $word in
    -*) _korzhinay_words "$word" "$options" ;;
    *) [ "$operand" != files ] || _korzhinay_files "$word" ;;
    esac
}

complete -F _korzhinay korzhinay
"#;

/// The whole script.
pub fn completion() -> String {
    let names = SUBCOMMANDS.map(|subcommand| subcommand.name).join(" ");
    let values: String = OPTIONS.iter().filter_map(value).collect();
    SCRIPT
        .replace("@FIRST@", &format!("{names} help --help -h --version"))
        .replace("@NAMES@", &names)
        .replace("@SUBCOMMANDS@", &SUBCOMMANDS.map(subcommand).concat())
        .replace("@VALUES@", &values)
}

/// The options of a subcommand, and what its operands are.
fn subcommand(subcommand: &Subcommand) -> String {
    let options: Vec<String> = subcommand.options().map(forms).collect();
    let operand = match subcommand.operand {
        Operand::Files | Operand::Table => "files",
        Operand::Expression => "",
    };
    let (name, options) = (subcommand.name, options.join(" "));
    format!("    {name}) options='{options}' operand='{operand}' ;;\n")
}

/// Both forms of an option.
fn forms(option: &'static OptionSpec) -> String {
    format!("{} {}", option.short, option.long).trim().into()
}

/// What offers these words.
fn words(names: &[&str]) -> String {
    format!("_korzhinay_words \"$word\" '{}'; ", names.join(" "))
}

/// What is offered after an option that takes a value.
fn value(option: &'static OptionSpec) -> Option<String> {
    let offered = match (option.value, option.completion) {
        ("", _) => return None,
        (_, Completion::Nothing) => String::new(),
        (_, Completion::Files) => "_korzhinay_files \"$word\"; ".into(),
        (_, Completion::DatumTypes) => words(&DATUM_TYPES.each_ref().map(|datum| datum.name)),
        (_, Completion::Editions) => words(&EDITIONS.map(|(name, _)| name)),
    };
    let forms = forms(option).replace(' ', " | ");
    Some(format!("        {forms}) {offered}return ;;\n"))
}
