//! The command line: what is printed where, and the exit codes.

mod common;

use common::{files, here, name, run, text};

#[test]
fn help() {
    for word in ["help", "--help", "-h"] {
        let output = run(&[word], b"");
        assert_eq!(output.status.code(), Some(0));
        assert!(text(&output.stdout).starts_with("usage: sheet COMMAND\n"));
        assert_eq!(text(&output.stderr), "");
    }
}

/// The line of the library: the SHA-256 of the archive that the crate in rust/ links.
fn library() -> String {
    let folders = match std::env::var_os("DISPATCH_BENCH_LIB") {
        Some(folder) => vec![folder.into()],
        None => vec![here("../../target/staticlib"), here("../../lib")],
    };
    let mut archives = folders.iter().map(|f| f.join("libdispatch_bench.a"));
    let archive = archives.find(|archive| archive.is_file()).unwrap();
    let sum = std::process::Command::new("sha256sum")
        .arg(archive)
        .output();
    let sum = text(&sum.unwrap().stdout);
    let interface = dispatch_bench::VERSION;
    format!("library {}\ninterface {interface}\n", &sum[..64])
}

#[test]
fn version() {
    for word in ["--version", "-V", "version"] {
        let output = run(&[word], b"");
        assert_eq!(output.status.code(), Some(0));
        let said = format!("sheet {}\n{}", env!("CARGO_PKG_VERSION"), library());
        assert_eq!(text(&output.stdout), said);
        assert_eq!(text(&output.stderr), "");
    }
}

/// What a command does is said after it, before it and among its words, and nothing is done.
#[test]
fn help_of_a_command() {
    let said = "\
usage: sheet draw SHEET [OUT] [--html OUT.html] [--fold] [RATES]
Draw a sheet and its pass, or where it is refused, as SVG, or as a page for a browser (--html); with --fold lines
without an idle-listed car are drawn as a strip.
SHEET is a sheet, or a text that `write` takes: what is said of it then names the text's lines.
  --html OUT.html      write a page for a browser, with the drawing, the lines of the pass and the matrix as a table
  --fold               draw lines without an idle-listed car as a strip
  --acceleration A     the rate at which a car speeds up; with it --deceleration must be there
  --deceleration D     the rate at which a car slows down; with it --acceleration must be there
  --speed V            the speed at the start of a run; 0 where it is not named
example: sheet draw lobby.txt lobby.svg
example: sheet draw lobby.sheet --html lobby.html
example: sheet draw lobby.sheet lobby.svg --acceleration 1 --deceleration 1
";
    for args in [
        &["draw", "--help"][..],
        &["draw", "-h"],
        &["help", "draw"],
        &["draw", "/no/such/file", "--help"],
    ] {
        let output = run(args, b"");
        assert_eq!(output.status.code(), Some(0), "{args:?}");
        assert_eq!(text(&output.stdout), said, "{args:?}");
    }
    for args in [&["store", "--help"][..], &["help", "store"]] {
        let said = text(&run(args, b"").stdout);
        assert_eq!(said.matches("usage: sheet store ").count(), 4, "{said}");
    }
    for command in &sheet::usage::COMMANDS {
        let words: Vec<&str> = command.name.split(' ').chain(["--help"]).collect();
        let said = text(&run(&words, b"").stdout);
        let usage = format!("usage: sheet {}\n", command.line());
        assert!(said.starts_with(&usage), "{said}");
    }
}

/// Nothing is done; what is wrong with the command line stands above the usage.
fn has_no_meaning(args: &[&str], why: &str) {
    let usage = text(&run(&["help"], b"").stdout);
    let output = run(args, b"");
    assert_eq!(output.status.code(), Some(2), "{args:?}");
    assert_eq!(text(&output.stderr), format!("sheet: {why}\n{usage}"));
    assert_eq!(text(&output.stdout), "");
}

#[test]
fn no_such_command() {
    has_no_meaning(&[], "no command is named");
    has_no_meaning(&["draught", "a"], "\"draught\" is no command");
    let meant = "\"explane\" is no command; did you mean explain?";
    has_no_meaning(&["explane", "a"], meant);
    has_no_meaning(&["help", "a"], "\"a\" is no command");
    let option = "draw has no option --sped; did you mean --speed?";
    has_no_meaning(&["draw", "a", "--sped", "1"], option);
    has_no_meaning(&["show", "-x", "a"], "show has no option -x");
}

const GRADE: &str = " SHEET GRADES.txt [SHEET GRADES.txt ..] [OUTPUT]";

#[test]
fn too_few_or_too_many_words() {
    for (args, words, takes) in [
        (&["show"][..], "few", " SHEET"),
        (&["write"], "few", " IN.txt [OUT]"),
        (&["explain"], "few", " SHEET [SHEET ..] [OUTPUT]"),
        (&["pass"], "few", " SHEET [SHEET ..] [RATES] [OUTPUT]"),
        (
            &[
                "pass",
                "--speed",
                "1",
                "--acceleration",
                "1",
                "--deceleration",
                "1",
            ],
            "few",
            " SHEET [SHEET ..] [RATES] [OUTPUT]",
        ),
        (&["grade", "a"], "few", GRADE),
        (&["grade", "a", "b", "c"], "few", GRADE),
        (
            &["draw", "a", "b", "c"],
            "many",
            " SHEET [OUT] [--html OUT.html] [--fold] [RATES]",
        ),
        (&["example", "ETD", "RSR"], "many", " [STRATEGY|sideways]"),
        (&["rule", "1", "2"], "many", " [NUMBER]"),
        (&["version", "a"], "many", ""),
        (&["--version", "a"], "many", ""),
        (&["store"], "few", " example|write|show|weights .."),
        (&["show", "--", "-a", "b"], "many", " SHEET"),
    ] {
        let name = args[0];
        let why = format!("too {words} words after {name}: expected `sheet {name}{takes}`");
        has_no_meaning(args, &why);
    }
}

#[test]
fn store_commands() {
    for (args, words, takes) in [
        (&["example", "ETD"][..], "many", ""),
        (&["write"], "few", " IN.txt [OUT]"),
        (&["write", "a", "b", "c"], "many", " IN.txt [OUT]"),
        (&["show"], "few", " STORE [STRATEGY]"),
        (&["show", "a", "ETD", "c"], "many", " STORE [STRATEGY]"),
        (&["weights", "a"], "few", " STORE DAY [STRATEGY]"),
        (
            &["weights", "a", "1", "ETD", "c"],
            "many",
            " STORE DAY [STRATEGY]",
        ),
    ] {
        let name = args[0];
        let why =
            format!("too {words} words after store {name}: expected `sheet store {name}{takes}`");
        has_no_meaning(&[&["store"], args].concat(), &why);
    }
    let meant = "\"store weight\" is no command; did you mean weights?";
    has_no_meaning(&["store", "weight", "a"], meant);
    has_no_meaning(&["store", "draw"], "\"store draw\" is no command");
}

#[test]
fn no_such_file() {
    for command in ["write", "show", "explain", "draw", "pass"] {
        let output = run(&[command, "/no/such/file"], b"");
        assert_eq!(output.status.code(), Some(1));
        assert!(text(&output.stderr).starts_with("/no/such/file: "));
        assert_eq!(text(&output.stdout), "");
    }
}

/// Each strategy has a text, which is a sheet of that strategy.
#[test]
fn texts_to_start_from() {
    let default = run(&["example"], b"");
    for strategy in ["ETD", "RSR", "SCAN"] {
        let output = run(&["example", strategy], b"");
        assert_eq!(output.status.code(), Some(0));
        assert_eq!(output.stdout == default.stdout, strategy == "ETD");
        let written = run(&["write", "-"], &output.stdout);
        assert_eq!(written.status.code(), Some(0));
        let shown = text(&run(&["show", "-"], &written.stdout).stdout);
        assert!(shown.contains(&format!("\npolicy strategy={strategy} ")));
    }
    let output = run(&["example", "sideways"], b"");
    let written = run(&["write", "-"], &output.stdout);
    assert_eq!((written.status.code(), written.stdout[0]), (Some(0), 2));
    let output = run(&["example", "LOOK"], b"");
    assert_eq!(output.status.code(), Some(1));
    let said = "\"LOOK\": expected a strategy, ETD, RSR or SCAN, or sideways\n";
    assert_eq!(text(&output.stderr), said);
    assert_eq!(text(&output.stdout), "");
}

#[test]
fn rules() {
    let all = run(&["rule"], b"");
    // Two lines each, 14 examples and 5 ranges.
    assert_eq!(text(&all.stdout).lines().count(), 2 * (16 + 4 + 7) + 14 + 5);
    let one = run(&["rule", "1"], b"");
    assert!(text(&one.stdout).starts_with("rule 1: A buffer that the host lent"));
    for (number, sheet, store) in [
        ("3", true, false),
        ("7", true, true),
        ("18", false, true),
        ("19", true, false),
        ("20", true, false),
        ("21", true, false),
        ("22", true, false),
    ] {
        let said = text(&run(&["rule", number], b"").stdout);
        assert_eq!(said.contains(&format!("rule {number}: ")), sheet, "{said}");
        assert_eq!(
            said.contains(&format!("rule {number} of a store: ")),
            store,
            "{said}"
        );
        let examples = said.lines().filter(|line| line.starts_with("example: "));
        let lines = 2 * (usize::from(sheet) + usize::from(store)) + examples.count();
        assert_eq!(said.lines().count(), lines);
    }
    let given_no_more = text(&run(&["rule", "15"], b"").stdout);
    assert!(
        given_no_more.contains("the first release gave this number, and it is not given any more")
    );
    for number in ["0", "23", "x"] {
        let output = run(&["rule", number], b"");
        assert_eq!(output.status.code(), Some(1));
        let said = format!("\"{number}\": expected a refusal's number, 1 to 22\n");
        assert_eq!(text(&output.stderr), said);
    }
}

/// Each text of tests/bad is refused with the stored message, and nothing is written.
#[test]
fn bad_texts() {
    let kept = std::env::temp_dir().join(format!("sheet-test-{}", std::process::id()));
    std::fs::create_dir_all(&kept).unwrap();
    let out = kept.join("out.sheet");
    std::fs::write(&out, "as before").unwrap();
    let paths = files("tests/bad", "txt");
    assert!(paths.len() >= 15);
    for path in paths {
        let content = std::fs::read(&path).unwrap();
        let output = run(&["write", "-", out.to_str().unwrap()], &content);
        assert_eq!(output.status.code(), Some(1), "{}", name(&path));
        assert_eq!(text(&output.stdout), "");
        let stored = std::fs::read(path.with_extension("err")).unwrap();
        assert_eq!(text(&output.stderr), text(&stored), "{}", name(&path));
        assert_eq!(std::fs::read(&out).unwrap(), b"as before");
    }
    assert_eq!(std::fs::read_dir(&kept).unwrap().count(), 1);
    std::fs::remove_dir_all(&kept).unwrap();
}

#[test]
fn written_file_is_the_sheet() {
    let folder = std::env::temp_dir().join(format!("sheet-file-{}", std::process::id()));
    std::fs::create_dir_all(&folder).unwrap();
    let out = folder.join("out.sheet");
    let example = here("examples/document_01.txt");
    let args = ["write", example.to_str().unwrap(), out.to_str().unwrap()];
    assert_eq!(run(&args, b"").status.code(), Some(0));
    let bytes = std::fs::read(&out).unwrap();
    assert_eq!(bytes, sheetgen::Sheet::example().write());
    let shown = run(&["show", out.to_str().unwrap()], b"");
    assert_eq!(run(&["write", "-"], &shown.stdout).stdout, bytes);
    assert_eq!(run(&["write", "-", "-"], &shown.stdout).stdout, bytes);
    assert_eq!(std::fs::read_dir(&folder).unwrap().count(), 1);
    std::fs::remove_dir_all(&folder).unwrap();
}

/// `show` takes a text for the bytes that it is, and says so on standard error.
#[test]
fn a_text_is_shown_with_a_hint() {
    let lobby = std::fs::read(here("examples/lobby.txt")).unwrap();
    let hint = "-: hint: If this is a sheet's text, `sheet write` turns it into a sheet.\n";
    for (bytes, said) in [
        (&lobby[..], hint),
        ("caf\u{e9}\r\n\tbar".as_bytes(), hint),
        (b"a", hint),
        (b"", ""),
        (b"a\0b", ""),
        (b"a\x1b", ""),
        (b"a\xff", ""),
        (&sheetgen::Sheet::example().write(), ""),
    ] {
        let shown = run(&["show", "-"], bytes);
        assert_eq!(shown.status.code(), Some(0));
        assert_eq!(text(&shown.stderr), said);
        assert_eq!(run(&["write", "-"], &shown.stdout).stdout, bytes);
    }
}

/// A link and a pipe stay what they are; a folder is an error.
#[cfg(unix)]
#[test]
fn what_is_no_plain_file_is_kept() {
    let folder = std::env::temp_dir().join(format!("sheet-link-{}", std::process::id()));
    std::fs::create_dir_all(&folder).unwrap();
    let (link, target, pipe) = (
        folder.join("link"),
        folder.join("target"),
        folder.join("pipe"),
    );
    std::fs::write(&target, "as before").unwrap();
    std::os::unix::fs::symlink(&target, &link).unwrap();
    let made = std::process::Command::new("mkfifo").arg(&pipe).status();
    assert!(made.unwrap().success());
    let example = here("examples/document_01.txt");
    let write = |out: &std::path::Path| {
        let args = ["write", example.to_str().unwrap(), out.to_str().unwrap()];
        run(&args, b"").status.code()
    };
    let sheet = sheetgen::Sheet::example().write();
    assert_eq!(write(&link), Some(0));
    assert!(std::fs::symlink_metadata(&link).unwrap().is_symlink());
    assert_eq!(std::fs::read(&target).unwrap(), sheet);
    let end = pipe.clone();
    let reader = std::thread::spawn(move || std::fs::read(end).unwrap());
    assert_eq!(write(&pipe), Some(0));
    assert_eq!(reader.join().unwrap(), sheet);
    assert_eq!(write(&folder), Some(1));
    assert_eq!(std::fs::read_dir(&folder).unwrap().count(), 3);
    std::fs::remove_dir_all(&folder).unwrap();
}
