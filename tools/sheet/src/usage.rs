//! The table of the commands. The usage, `--help`, the manual page and the completions are made of it, and the command line is read by it.

use crate::fields::STRATEGIES;
use crate::ramps::{ACCELERATION, DECELERATION, SPEED};

/// What a word of a command line is.
#[derive(Clone, Copy, PartialEq, Eq)]
pub enum Takes {
    /// A file that is read or written.
    File,
    /// One of these words.
    One(&'static [&'static str]),
    /// A number.
    Number,
    /// The name of a command.
    Command,
    /// An id, or a name of the text.
    Id,
}

/// A word that follows a command.
pub struct Word {
    /// Its name in the usage.
    pub name: &'static str,
    pub takes: Takes,
    /// It must be there.
    pub is_needed: bool,
}

/// An option of a command.
pub struct Choice {
    pub name: &'static str,
    /// What follows it, where something does.
    pub value: Option<Word>,
    /// The name of the group that the usage names in its place.
    pub group: Option<&'static str>,
    pub says: &'static str,
}

pub struct Command {
    /// One word, or two: `store write`.
    pub name: &'static str,
    pub words: &'static [Word],
    /// So many of the last words may follow again, any number of times.
    pub repeats: usize,
    pub options: &'static [Choice],
    /// What it does, without a full stop.
    pub says: &'static str,
    /// What `--help` and the manual page add, in sentences.
    pub more: &'static str,
    /// Command lines that work.
    pub examples: &'static [&'static str],
}

const fn needed(name: &'static str, takes: Takes) -> Word {
    Word {
        name,
        takes,
        is_needed: true,
    }
}

const fn file(name: &'static str) -> Word {
    needed(name, Takes::File)
}

const fn maybe(name: &'static str, takes: Takes) -> Word {
    Word {
        name,
        takes,
        is_needed: false,
    }
}

const fn plain(name: &'static str, says: &'static str) -> Command {
    Command {
        name,
        words: &[],
        repeats: 0,
        options: &[],
        says,
        more: "",
        examples: &[],
    }
}

const OUT: Word = maybe("OUT", Takes::File);
const STRATEGY: Word = maybe("STRATEGY", Takes::One(STRATEGIES));
/// The texts to start from.
pub const EXAMPLES: &[&str] = &["ETD", "RSR", "SCAN", "sideways"];
/// The shells that there are completions for.
pub const SHELLS: &[&str] = &["bash", "zsh", "fish"];

const fn rate(name: &'static str, value: &'static str, says: &'static str) -> Choice {
    Choice {
        name,
        value: Some(needed(value, Takes::Number)),
        group: Some("RATES"),
        says,
    }
}

const fn flag(name: &'static str, group: Option<&'static str>, says: &'static str) -> Choice {
    Choice {
        name,
        value: None,
        group,
        says,
    }
}

/// The group of what is printed of many files.
const OUTPUT: Option<&str> = Some("OUTPUT");
const JSON_SAYS: &str = "print an object of JSON, in one line; of many files one each";
const CSV_SAYS: &str = "print comma-separated values, with the names of the columns above";
const JSON: Choice = flag("--json", OUTPUT, JSON_SAYS);
const CSV: Choice = flag("--csv", OUTPUT, CSV_SAYS);
const STRICT: Choice = flag(
    "--strict",
    OUTPUT,
    "end with exit status 3 where a sheet, or a choice, is refused",
);
const LINES: Choice = flag(
    "--lines",
    OUTPUT,
    "print a line for each file and nothing else, also where one file is named: no summary, no names of columns",
);
const JOBS: Choice = Choice {
    name: "--jobs",
    value: Some(needed("N", Takes::Number)),
    group: OUTPUT,
    says: "work on so many files at once; as many as there are cores where it is not named",
};

/// What is printed of one file or of many.
const PRINTED: [Choice; 5] = [JSON, CSV, STRICT, LINES, JOBS];

/// The same, and the rates of a run.
const PASSED: [Choice; 8] = [
    ACCELERATES,
    DECELERATES,
    STARTS,
    JSON,
    CSV,
    STRICT,
    LINES,
    JOBS,
];

/// The two forms for programs.
const FORMS: [Choice; 2] = [
    flag("--json", None, JSON_SAYS),
    flag("--csv", None, CSV_SAYS),
];

/// The same, and a page.
const COMPARED: [Choice; 3] = [
    Choice {
        name: "--html",
        value: Some(file("OUT.html")),
        group: None,
        says: "write a page for a browser, with both drawings and what differs",
    },
    flag("--json", None, JSON_SAYS),
    flag("--csv", None, CSV_SAYS),
];

/// How a sheet is drawn, and the rates of a run.
const DRAWN: [Choice; 5] = [
    Choice {
        name: "--html",
        value: Some(file("OUT.html")),
        group: None,
        says: "write a page for a browser, with the drawing, the lines of the pass and the matrix as a table",
    },
    Choice {
        name: "--fold",
        value: None,
        group: None,
        says: "draw lines without an idle-listed car as a strip",
    },
    ACCELERATES,
    DECELERATES,
    STARTS,
];

const ACCELERATES: Choice = rate(
    ACCELERATION,
    "A",
    "the rate at which a car speeds up; with it --deceleration must be there",
);
const DECELERATES: Choice = rate(
    DECELERATION,
    "D",
    "the rate at which a car slows down; with it --acceleration must be there",
);
const STARTS: Choice = rate(
    SPEED,
    "V",
    "the speed at the start of a run; 0 where it is not named",
);

const A_TEXT: &str = "SHEET is a sheet, or a text that `write` takes: what is said of it then names the text's lines.";

pub static COMMANDS: [Command; 20] = [
    Command {
        words: &[maybe("STRATEGY|sideways", Takes::One(EXAMPLES))],
        examples: &["sheet example >lobby.txt", "sheet example SCAN"],
        ..plain(
            "example",
            "print a text to start from: ETD (the default), RSR or SCAN, or one of edition 2",
        )
    },
    Command {
        words: &[file("IN.txt"), OUT],
        more: "Every bad field of every line is named, and OUT then stays as it was. Names of stops and cars stay in the text: a sheet has no place for them. `policy .. weights=STORE day=DAY` takes the weights of a store, which is looked for from the text's folder on.",
        examples: &["sheet write lobby.txt lobby.sheet"],
        ..plain(
            "write",
            "turn text into a sheet, in OUT or on standard output",
        )
    },
    Command {
        words: &[file("SHEET")],
        more: "Any file can be shown, and nothing of it is lost. A text is shown as the bytes that it is.",
        examples: &["sheet show lobby.sheet >lobby.txt"],
        ..plain(
            "show",
            "print a sheet as text that `write` turns into the same bytes",
        )
    },
    Command {
        words: &[file("SHEET")],
        repeats: 1,
        options: &PRINTED,
        more: "SHEET is a sheet, or a text that `write` takes: what is said of it then names the text's lines. After the refusal come the faults that would be refused once it is mended, and what is allowed but hardly meant. Of many files, or of a folder, a line each is printed.",
        examples: &[
            "sheet explain lobby.sheet",
            "sheet explain lobby.txt",
            "sheet explain sheets --strict",
        ],
        ..plain(
            "explain",
            "say whether the bench accepts a sheet, and if not, what to do",
        )
    },
    Command {
        words: &[file("SHEET"), OUT],
        options: &DRAWN,
        more: A_TEXT,
        examples: &[
            "sheet draw lobby.txt lobby.svg",
            "sheet draw lobby.sheet --html lobby.html",
            "sheet draw lobby.sheet lobby.svg --acceleration 1 --deceleration 1",
        ],
        ..plain(
            "draw",
            "draw a sheet and its pass, or where it is refused, as SVG, or as a page for a browser (--html); with --fold lines without an idle-listed car are drawn as a strip",
        )
    },
    Command {
        words: &[file("SHEET")],
        repeats: 1,
        options: &PASSED,
        more: "SHEET is a sheet, or a text that `write` takes: what is said of it then names the text's lines. Of many files, or of a folder, a line each is printed: files in the order named, of a folder those that end in .sheet or .txt, in it and below it, sorted. A summary follows on standard error.",
        examples: &[
            "sheet pass lobby.sheet",
            "sheet pass sheets",
            "sheet pass sheets --csv >passes.csv",
        ],
        ..plain(
            "pass",
            "print the pass, or the refusal, in the lines of the program passprint; the first ends with the number of held cells",
        )
    },
    Command {
        words: &[file("SHEET")],
        options: &FORMS,
        more: A_TEXT,
        examples: &[
            "sheet matrix lobby.sheet",
            "sheet matrix lobby.sheet --csv >lobby.csv",
        ],
        ..plain(
            "matrix",
            "print the cells of the pass, a row for each idle car and a column for each pending stop, or the refusal",
        )
    },
    Command {
        words: &[file("FIRST"), file("SECOND"), maybe("OUT.svg", Takes::File)],
        options: &COMPARED,
        more: "Records are compared by their ids. Of two sheets that agree but in the limit, or but in bars, what is proved of their totals is said (demand 3, F-14), or what keeps it from being so. FIRST and SECOND are sheets, or texts that `write` takes.",
        examples: &[
            "sheet compare lobby.sheet lobby_2.sheet",
            "sheet compare lobby.sheet lobby_2.sheet both.svg",
            "sheet compare lobby.sheet lobby_2.sheet --html both.html",
        ],
        ..plain(
            "compare",
            "print what differs in two sheets, in their passes and decisions, and draw both side by side, in OUT.svg or as a page (--html)",
        )
    },
    Command {
        words: &[file("SHEET"), maybe("OUT.svg", Takes::File)],
        options: &FORMS,
        more: "The last limit is the first from which on all answers are those without a limit. With OUT.svg the table is drawn too, as a small plot. SHEET is a sheet, or a text that `write` takes.",
        examples: &[
            "sheet raise lobby.sheet",
            "sheet raise lobby.sheet limits.svg",
        ],
        ..plain(
            "raise",
            "pass a sheet under limits 1, 2 and so on, and under none, and print the total, the cars sent and the share of decisions that changed",
        )
    },
    Command {
        words: &[file("SHEET"), file("GRADES.txt")],
        repeats: 2,
        options: &PRINTED,
        more: "SHEET is a sheet, or a text that `write` takes: what is said of it then names the text's lines. Of many pairs a line each is printed. With a folder in the place of GRADES.txt each .txt of it is graded; with two folders each .sheet of the first, with the .txt of the same name in the second.",
        examples: &[
            "sheet grade lobby.sheet grades.txt",
            "sheet grade lobby.sheet grades",
        ],
        ..plain(
            "grade",
            "say whether the prices that a site sent show its choice of columns to be least, and if not, the first rule that they break",
        )
    },
    Command {
        words: &[
            file("SHEET"),
            needed("CAR", Takes::Id),
            needed("STOP", Takes::Id),
        ],
        options: &FORMS,
        more: "CAR and STOP are ids, or names that a text gives. With a rank each term stands beside its weight, then the cost and its cell; without one the rule that says so, the records to look at, and what to do. SHEET is a sheet, or a text that `write` takes.",
        examples: &["sheet why lobby.sheet 1 3", "sheet why lobby.txt 1 3"],
        ..plain(
            "why",
            "say why a car costs what it does for a stop, or why it has no rank there",
        )
    },
    Command {
        words: &[maybe("NUMBER", Takes::Number)],
        examples: &["sheet rule 11"],
        ..plain("rule", "print a refusal's rule, or all of them")
    },
    plain(
        "store example",
        "print the text of a store of weights to start from",
    ),
    Command {
        words: &[file("IN.txt"), OUT],
        examples: &["sheet store write corrections.txt corrections.store"],
        ..plain(
            "store write",
            "turn text into a store, in OUT or on standard output",
        )
    },
    Command {
        words: &[file("STORE"), STRATEGY],
        examples: &["sheet store show corrections.store ETD"],
        ..plain(
            "store show",
            "print a store as text that `store write` turns into the same bytes, settings by name where a strategy is named",
        )
    },
    Command {
        words: &[file("STORE"), needed("DAY", Takes::Number), STRATEGY],
        examples: &["sheet store weights corrections.store 20500 ETD"],
        ..plain(
            "store weights",
            "print the six weights of a day with the records that they are of, or why there are none",
        )
    },
    Command {
        examples: &["sheet man >sheet.1"],
        ..plain("man", "print this program's manual page")
    },
    Command {
        words: &[needed("SHELL", Takes::One(SHELLS))],
        more: "Where they belong: bash reads ~/.local/share/bash-completion/completions/sheet, fish reads ~/.config/fish/completions/sheet.fish, and zsh a file _sheet in a folder of its fpath.",
        examples: &[
            "sheet completions fish >~/.config/fish/completions/sheet.fish",
            "source <(sheet completions bash)",
        ],
        ..plain(
            "completions",
            "print what completes command lines in a shell: bash, zsh or fish",
        )
    },
    Command {
        words: &[maybe("COMMAND", Takes::Command)],
        ..plain(
            "help",
            "print this, or what a command does; so does --help, or -h, after a command",
        )
    },
    plain(
        "version",
        "print the versions of the program, the library and its interface; so do --version and -V",
    ),
];

/// What holds for every command.
pub const GENERAL: &[&str] = &[
    "With RATES, --acceleration A --deceleration D [--speed V], `pass` prints beside each decision, and `draw` writes at each arrow, the seconds of the run from the car to the stop, from speed V (0 where it is not named) and by the car's max speed.",
    "With OUTPUT, [--json] [--csv] [--strict] [--lines] [--jobs N], what `pass`, `explain` and `grade` print is for programs, or of many files: `sheet pass --help` says more.",
    "SHEET is a sheet, or a text that `write` takes. - stands for standard input, as OUT for standard output; after -- no word is an option. OUT is another file than what is read, may be written, and has the ending of what it gets, or none that is known.",
    "The text is described in docs/manual/planners.md.",
    "Exit 0: done, a refusal explained included. 1: not done, the reason is on standard error. 2: no such command. 3: a sheet is refused, and --strict was named.",
];

pub fn command(name: &str) -> Option<&'static Command> {
    COMMANDS.iter().find(|command| command.name == name)
}

impl Choice {
    /// Its name, and what follows it: `--speed V`.
    pub fn line(&self) -> String {
        match &self.value {
            Some(value) => format!("{} {}", self.name, value.name),
            None => self.name.into(),
        }
    }
}

impl Command {
    pub fn option(&self, name: &str) -> Option<&'static Choice> {
        self.options.iter().find(|option| option.name == name)
    }

    /// The least and the most words that follow it.
    pub fn counts(&self) -> (usize, usize) {
        let needed = self.words.iter().filter(|word| word.is_needed).count();
        match self.repeats {
            0 => (needed, self.words.len()),
            _ => (needed, usize::MAX),
        }
    }

    /// The words that may follow again, by name.
    fn repeated(&self) -> Option<String> {
        let from = self.words.len().checked_sub(self.repeats)?;
        let names: Vec<&str> = self.words[from..].iter().map(|word| word.name).collect();
        (self.repeats > 0).then(|| format!("[{} ..]", names.join(" ")))
    }

    /// Its name, its words and its options: `draw SHEET [OUT] [RATES]`.
    pub fn line(&self) -> String {
        let word = |word: &Word| match word.is_needed {
            true => word.name.to_string(),
            false => format!("[{}]", word.name),
        };
        let words = self.words.iter().map(word).chain(self.repeated());
        let mut parts: Vec<String> = [self.name.to_string()].into_iter().chain(words).collect();
        for option in self.options {
            let shown = match option.group {
                Some(group) => format!("[{group}]"),
                None => format!("[{}]", option.line()),
            };
            if !parts.contains(&shown) {
                parts.push(shown);
            }
        }
        parts.join(" ")
    }

    /// What `sheet COMMAND --help` prints.
    pub fn help(&self) -> String {
        let mut help = format!("usage: sheet {}\n", self.line());
        help += &wrapped(&format!("{}.", capital(self.says)), 0);
        if !self.more.is_empty() {
            help += &wrapped(self.more, 0);
        }
        for option in self.options {
            help += &entry(&option.line(), option.says);
        }
        for example in self.examples {
            help += &format!("example: {example}\n");
        }
        help
    }
}

/// What `sheet help` prints.
pub fn usage() -> String {
    let mut usage = String::from("usage: sheet COMMAND\n");
    for command in &COMMANDS {
        usage += &entry(&command.line(), command.says);
    }
    for sentence in GENERAL {
        usage += &wrapped(sentence, 0);
    }
    usage
}

pub fn capital(word: &str) -> String {
    let (first, others) = word.split_at(word.chars().next().map_or(0, char::len_utf8));
    first.to_uppercase() + others
}

/// Where the second column of the usage begins.
const COLUMN: usize = 23;
const WIDTH: usize = 120;

/// A name and what is said of it, in two columns.
fn entry(left: &str, says: &str) -> String {
    let said = wrapped(says, COLUMN);
    match left.len() + 4 > COLUMN {
        true => format!("  {left}\n{said}"),
        false => format!("  {left:<21}{}", said.trim_start()),
    }
}

/// Words in lines, each with so many blanks in front.
fn wrapped(words: &str, indent: usize) -> String {
    let (mut lines, mut line) = (String::new(), String::new());
    for word in words.split(' ') {
        if !line.is_empty() && indent + line.chars().count() + 1 + word.chars().count() > WIDTH {
            lines += &format!("{:indent$}{line}\n", "");
            line.clear();
        }
        if !line.is_empty() {
            line.push(' ');
        }
        line += word;
    }
    lines + &format!("{:indent$}{line}\n", "")
}
