//! What completes command lines in a shell, made of the table of the commands.

use crate::usage::{COMMANDS, Choice, Command, Takes, Word};

/// What `sheet completions SHELL` prints; `None` for a shell that there are none for.
pub fn of(shell: &str) -> Option<String> {
    match shell {
        "bash" => Some(bash()),
        "zsh" => Some(zsh()),
        "fish" => Some(fish()),
        _ => None,
    }
}

/// The words that a command line begins with.
fn firsts() -> Vec<&'static str> {
    let mut firsts: Vec<&str> = Vec::new();
    for command in &COMMANDS {
        let first = command.name.split(' ').next().unwrap_or("");
        if !firsts.contains(&first) {
            firsts.push(first);
        }
    }
    firsts
}

/// The second words of the commands that have two.
fn seconds() -> Vec<&'static str> {
    let names = COMMANDS.iter().map(|command| command.name);
    names
        .filter_map(|name| name.strip_prefix("store "))
        .collect()
}

/// The words that can stand in a place; none where it is a file or a number.
fn choices(word: &Word) -> Vec<&'static str> {
    match word.takes {
        Takes::One(words) => words.to_vec(),
        Takes::Command => firsts(),
        Takes::File | Takes::Number | Takes::Id => Vec::new(),
    }
}

/// The options that something follows, of all commands, each once.
fn with_values() -> Vec<&'static str> {
    let mut names: Vec<&str> = Vec::new();
    for option in COMMANDS.iter().flat_map(|command| command.options) {
        if option.value.is_some() && !names.contains(&option.name) {
            names.push(option.name);
        }
    }
    names
}

/// The options of a command and --help.
fn options(command: &Command) -> String {
    let names = command.options.iter().map(|option| option.name);
    names.chain(["--help"]).collect::<Vec<_>>().join(" ")
}

fn bash() -> String {
    let (mut places, mut all) = (String::new(), String::new());
    for command in &COMMANDS {
        let name = command.name;
        for (k, word) in command.words.iter().enumerate() {
            places += &bash_place(name, &k.to_string(), word);
        }
        // What follows again are files.
        if command.repeats > 0 {
            places += &format!("        '{name} '[0-9]*) files=yes ;;\n");
        }
        for option in command.options {
            let value = option.value.as_ref();
            places += &value.map_or(String::new(), |word| bash_place(name, option.name, word));
        }
        let options = options(command);
        all += &format!("            '{name}') words='{options}' ;;\n");
    }
    BASH.replace("FIRSTS", &firsts().join(" "))
        .replace("SECONDS_", &seconds().join(" "))
        .replace("VALUES", &with_values().join(" | "))
        .replace("        PLACES\n", &places)
        .replace("            OPTIONS\n", &all)
}

/// What can stand in a place: the number of a word, or behind an option.
fn bash_place(name: &str, place: &str, word: &Word) -> String {
    let does = match (word.takes, choices(word).join(" ")) {
        (Takes::File, _) => "files=yes".into(),
        (_, choices) => format!("words='{choices}'"),
    };
    format!("        '{name} {place}') {does} ;;\n")
}

const BASH: &str = r#"# Completions of the program sheet for bash.
_sheet() {
    local cur=${COMP_WORDS[COMP_CWORD]} name=${COMP_WORDS[1]} first=2 words='' files='' k place=0
    COMPREPLY=()
    if ((COMP_CWORD == 1)); then
        COMPREPLY=($(compgen -W 'FIRSTS --help --version' -- "$cur"))
        return
    fi
    if [[ $name == store ]]; then
        if ((COMP_CWORD == 2)); then
            COMPREPLY=($(compgen -W 'SECONDS_ --help' -- "$cur"))
            return
        fi
        name="store ${COMP_WORDS[2]}" first=3
    fi
    for ((k = first; k < COMP_CWORD; k++)); do
        case ${COMP_WORDS[k]} in
        VALUES) ((++k < COMP_CWORD)) || place=${COMP_WORDS[k - 1]} ;;
        -?*) ;;
        *) ((++place)) ;;
        esac
    done
    case "$name $place" in
        PLACES
    esac
    if [[ $cur == -?* ]]; then
        files=''
        case "$name" in
            OPTIONS
        esac
    fi
    local IFS=$'\n'
    if [[ $files ]]; then
        compopt -o filenames 2>/dev/null
        COMPREPLY=($(compgen -f -- "$cur"))
    else
        COMPREPLY=($(compgen -W "${words// /$'\n'}" -- "$cur"))
    fi
}
complete -F _sheet sheet
"#;

/// A text between two ' of a shell, without what ends it there.
fn quoted(text: &str) -> String {
    format!("'{}'", text.replace('\'', "'\\''"))
}

/// A description inside of a zsh specification.
fn described(text: &str) -> String {
    let mut said = text.to_string();
    for c in ['\\', ':', '[', ']'] {
        said = said.replace(c, &format!("\\{c}"));
    }
    said
}

fn zsh() -> String {
    let of = |command: &Command| {
        let last = command.name.rsplit(' ').next().unwrap_or("");
        quoted(&format!("{last}:{}", described(command.says)))
    };
    let is_store = |command: &&Command| command.name.starts_with("store ");
    let first: Vec<String> = COMMANDS.iter().filter(|c| !is_store(c)).map(of).collect();
    let second: Vec<String> = COMMANDS.iter().filter(is_store).map(of).collect();
    let cases: String = COMMANDS.iter().map(zsh_case).collect();
    ZSH.replace("FIRSTS", &first.join("\n            "))
        .replace("SECONDS_", &second.join("\n            "))
        .replace("        CASES\n", &cases)
}

const ZSH: &str = r#"#compdef sheet
# Completions of the program sheet for zsh.
_sheet() {
    local name=$words[2]
    local -a commands
    if (( CURRENT == 2 )); then
        commands=(
            FIRSTS
            'store:write, show and ask stores of weights'
        )
        _describe command commands
        return
    fi
    shift words
    (( CURRENT-- ))
    if [[ $name == store ]]; then
        if (( CURRENT == 2 )); then
            commands=(
            SECONDS_
            )
            _describe command commands
            return
        fi
        name="store $words[2]"
        shift words
        (( CURRENT-- ))
    fi
    case $name in
        CASES
    esac
}
if [[ $funcstack[1] == _sheet ]]; then
    _sheet "$@"
elif (( $+functions[compdef] )); then
    compdef _sheet sheet
fi
"#;

fn zsh_case(command: &Command) -> String {
    let action = |word: &Word| match (word.takes, choices(word)) {
        (Takes::File, _) => "_files".into(),
        (_, choices) => format!("({})", choices.join(" ")),
    };
    let option = |option: &Choice| {
        let value = option.value.as_ref().map_or(String::new(), |word| {
            format!(":{}:{}", described(word.name), action(word))
        });
        let (name, says) = (option.name, described(option.says));
        quoted(&format!("{name}[{says}]{value}"))
    };
    let word = |(k, word): (usize, &Word)| {
        let colons = if word.is_needed { ":" } else { "::" };
        let (name, action) = (described(word.name), action(word));
        quoted(&format!("{}{colons}{name}:{action}", k + 1))
    };
    let help = quoted("--help[say what the command does]");
    let options = command.options.iter().map(option).chain([help]);
    let further = command.words.last().filter(|_| command.repeats > 0);
    let further =
        further.map(|word| quoted(&format!("*:{}:{}", described(word.name), action(word))));
    let parts: Vec<String> = options
        .chain(command.words.iter().enumerate().map(word))
        .chain(further)
        .collect();
    let name = quoted(command.name);
    format!("        {name}) _arguments {} ;;\n", parts.join(" "))
}

fn fish() -> String {
    let mut lines =
        String::from("# Completions of the program sheet for fish.\ncomplete -c sheet -f\n");
    let at_first = "-n __fish_use_subcommand";
    for first in firsts() {
        let says = COMMANDS.iter().find(|command| command.name == first);
        let says = says.map_or("write, show and ask stores of weights", |c| c.says);
        lines += &format!(
            "complete -c sheet {at_first} -a {first} -d {}\n",
            quoted(says)
        );
    }
    lines += &format!("complete -c sheet {at_first} -l version -d 'print the versions'\n");
    lines += "complete -c sheet -l help -d 'say what the command does'\n";
    let seconds = seconds().join(" ");
    lines += &format!(
        "complete -c sheet -n '__fish_seen_subcommand_from store; and not __fish_seen_subcommand_from {seconds}' -a '{seconds}'\n"
    );
    lines + &COMMANDS.iter().map(fish_lines).collect::<String>()
}

/// The lines of what follows a command.
fn fish_lines(command: &Command) -> String {
    let seen = |word: &str| format!("__fish_seen_subcommand_from {word}");
    let condition = match command.name.split_once(' ') {
        Some((first, second)) => format!("{}; and {}", seen(first), seen(second)),
        None => format!("{}; and not {}", seen(command.name), seen("store")),
    };
    let start = format!("complete -c sheet -n {}", quoted(&condition));
    let mut lines = String::new();
    if command.words.iter().any(|word| word.takes == Takes::File) {
        lines += &format!("{start} -F\n");
    }
    for word in command.words {
        let choices = choices(word).join(" ");
        if !choices.is_empty() {
            lines += &format!("{start} -a '{choices}'\n");
        }
    }
    for option in command.options {
        let value = match option.value.as_ref().map(|word| word.takes) {
            Some(Takes::File) => " -r -F",
            Some(_) => " -x",
            None => "",
        };
        let name = option.name.trim_start_matches('-');
        lines += &format!("{start} -l {name}{value} -d {}\n", quoted(option.says));
    }
    lines
}
