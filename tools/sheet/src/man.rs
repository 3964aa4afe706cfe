//! The manual page of the program, in roff, made of the table of the commands.

use crate::usage::{COMMANDS, Command, GENERAL, capital};

/// What the program is, for the page's first line.
const WHAT: &str = "write, show, explain and draw sheets of the dispatch bench";

/// What `sheet man` prints.
pub fn page() -> String {
    let version = env!("CARGO_PKG_VERSION");
    let mut page = format!(".TH SHEET 1 \"\" \"sheet {version}\" \"Dispatch bench\"\n");
    page += &format!(".SH NAME\nsheet \\- {}\n", escaped(WHAT));
    page += ".SH SYNOPSIS\n.B sheet\n.I COMMAND\n";
    page += ".SH DESCRIPTION\n";
    for sentence in GENERAL {
        page += &format!(".PP\n{}\n", escaped(sentence));
    }
    page += ".SH COMMANDS\n";
    page += &COMMANDS.iter().map(of_command).collect::<String>();
    page += ".SH EXAMPLES\n.nf\n";
    for example in COMMANDS.iter().flat_map(|command| command.examples) {
        page += &format!("{}\n", escaped(example));
    }
    page + ".fi\n"
}

fn of_command(command: &Command) -> String {
    let mut lines = format!(".TP\n.B sheet {}\n", escaped(&command.line()));
    lines += &format!("{}.\n", escaped(&capital(command.says)));
    if !command.more.is_empty() {
        lines += &format!("{}\n", escaped(command.more));
    }
    for option in command.options {
        let name = escaped(&option.line());
        lines += &format!(".br\n.B {name}\n{}.\n", escaped(&capital(option.says)));
    }
    lines
}

/// Words without what roff takes for its own.
fn escaped(words: &str) -> String {
    let words = words.replace('\\', "\\e").replace('-', "\\-");
    let words = words.replace('~', "\\(ti").replace('`', "\\(ga");
    match words.starts_with(['.', '\'']) {
        true => format!("\\&{words}"),
        false => words,
    }
}
