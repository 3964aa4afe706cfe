//! Many files: a line each in their order, whatever the number of workers, the summary, the exit status, and the forms for programs.

mod common;

use std::path::PathBuf;
use std::process::Output;

use common::{here, is_json, run, stored_as, text};

/// A folder of its own, away at the end.
struct Folder(PathBuf);

impl Folder {
    fn new(name: &str) -> Self {
        let path = std::env::temp_dir().join(format!("sheet-{name}-{}", std::process::id()));
        std::fs::create_dir_all(&path).unwrap();
        Folder(path)
    }

    fn put(&self, name: &str, bytes: &[u8]) {
        let path = self.0.join(name);
        std::fs::create_dir_all(path.parent().unwrap()).unwrap();
        std::fs::write(path, bytes).unwrap();
    }

    fn path(&self) -> &str {
        self.0.to_str().unwrap()
    }

    /// What is printed, without the folder's name.
    fn said(&self, bytes: &[u8]) -> String {
        text(bytes).replace(&format!("{}/", self.path()), "")
    }
}

impl Drop for Folder {
    fn drop(&mut self) {
        let _ = std::fs::remove_dir_all(&self.0);
    }
}

fn example(name: &str) -> Vec<u8> {
    std::fs::read(here("examples").join(name)).unwrap()
}

/// Sheets, texts, a refused one and files that are not taken, in two folders.
fn some_files(name: &str) -> Folder {
    let folder = Folder::new(name);
    folder.put("b/lobby.txt", &example("lobby.txt"));
    folder.put("b.sheet", &sheetgen::Sheet::example().write());
    folder.put("b/phase.TXT", &example("refusal_08_phase.txt"));
    folder.put("b/old.sheet", &[3, 0, 0]);
    folder.put("b/notes.md", b"not taken");
    folder.put("a/bad.txt", b"policy strategy=ETD\nstop id=x\n");
    folder
}

fn code(output: &Output) -> Option<i32> {
    output.status.code()
}

#[test]
fn a_folder_has_a_line_for_each_file() {
    let folder = some_files("folder");
    let said = "\
b.sheet: cars 2 stops 2 total 10000000 held 0
b/lobby.txt: cars 2 stops 2 total 800000 held 0
b/old.sheet: refused 3 at 0
b/phase.TXT: refused 8 at 750
";
    let summary = "5 sheets: 2 accepted, 2 refused (3: 1, 8: 1), 1 not read\n";
    for jobs in ["1", "2", "5", "64"] {
        let output = run(&["pass", folder.path(), "--jobs", jobs], b"");
        let out = folder.said(&output.stdout);
        let shown: Vec<&str> = out.lines().collect();
        assert_eq!(shown.len(), 5, "{out}");
        assert_eq!(shown[1..], said.lines().collect::<Vec<_>>());
        assert!(shown[0].starts_with("a/bad.txt: not read: line 1, column 1: "));
        assert_eq!(text(&output.stderr), summary);
        // What was not read comes before what is refused.
        assert_eq!(code(&output), Some(1));
    }
}

/// The order is that of the words; of one file the output is as ever.
#[test]
fn files_stand_in_the_order_named() {
    let folder = some_files("order");
    let [b, lobby, none] = ["b.sheet", "b/lobby.txt", "none"].map(|name| folder.0.join(name));
    let [b, lobby, none] = [&b, &lobby, &none].map(|path| path.to_str().unwrap());
    let output = run(&["pass", lobby, b, none, lobby], b"");
    let said = "\
b/lobby.txt: cars 2 stops 2 total 800000 held 0
b.sheet: cars 2 stops 2 total 10000000 held 0
none: not read: there is no such file or folder
b/lobby.txt: cars 2 stops 2 total 800000 held 0
";
    assert_eq!(folder.said(&output.stdout), said);
    assert_eq!(
        text(&output.stderr),
        "4 sheets: 3 accepted, 0 refused, 1 not read\n"
    );
    let one = run(&["pass", b], b"");
    assert_eq!(text(&one.stdout), text(&example("document_01.pass")));
    assert_eq!((text(&one.stderr), code(&one)), (String::new(), Some(0)));
    // One object has no summary either.
    let object = run(&["pass", b, "--json"], b"");
    assert_eq!(
        (text(&object.stderr), code(&object)),
        (String::new(), Some(0))
    );
    let line = run(&["pass", b, "--lines"], b"");
    let said = "b.sheet: cars 2 stops 2 total 10000000 held 0\n";
    assert_eq!(
        (folder.said(&line.stdout), text(&line.stderr)),
        (said.into(), String::new())
    );
}

#[test]
fn a_folder_without_a_sheet() {
    let folder = Folder::new("empty");
    folder.put("notes.md", b"not taken");
    let output = run(&["explain", folder.path()], b"");
    let said = format!(
        "{}: not read: holds no file that ends in .sheet or .txt\n",
        folder.path()
    );
    assert_eq!((text(&output.stdout), code(&output)), (said, Some(1)));
}

/// With --strict a refusal has exit status 3; without it 0.
#[test]
fn strict() {
    let folder = some_files("strict");
    let path = |name: &str| folder.0.join(name).to_str().unwrap().to_string();
    let [good, bad, grades] = ["b/lobby.txt", "b/old.sheet", "none"].map(path);
    for command in ["pass", "explain"] {
        for (args, status) in [
            (&[&good[..], &bad][..], 0),
            (&[&good, &bad, "--strict"], 3),
            (&[&bad, "--strict"], 3),
            (&[&bad, "--json", "--strict"], 3),
            (&[&bad], 0),
            (&[&good, "--strict"], 0),
            (&[&good, &good, "--strict"], 0),
            (&[&good, &bad, &grades, "--strict"], 1),
        ] {
            let output = run(&[&[command], args].concat(), b"");
            assert_eq!(code(&output), Some(status), "{command} {args:?}");
        }
    }
    let grades = here("examples/grades");
    let output = run(&["grade", &good, grades.to_str().unwrap(), "--strict"], b"");
    assert_eq!(code(&output), Some(3));
    let once = grades.join("refusal_19_few.txt");
    let output = run(&["grade", &good, once.to_str().unwrap(), "--strict"], b"");
    assert_eq!(code(&output), Some(3));
}

#[test]
fn explained_by_lines() {
    let folder = some_files("explain");
    folder.put("a/bad.txt", &example("small_scan.txt"));
    let output = run(&["explain", folder.path()], b"");
    let said = "\
a/bad.txt: accepted
b.sheet: accepted
b/lobby.txt: accepted
b/old.sheet: refused 3 at 0: Head (bit 0): edition is 3, but this bench reads editions 1 and 2.
b/phase.TXT: refused 8 at 750: line 5: Car record 1 (id 7, bit 750; byte 93, bit 6): phase is 7, but it must be one of idle, moving, repositioning, door_opening, loading, door_closing, stopped.
";
    assert_eq!(folder.said(&output.stdout), said);
    assert_eq!(
        text(&output.stderr),
        "5 sheets: 3 accepted, 2 refused (3: 1, 8: 1)\n"
    );
    assert_eq!(code(&output), Some(0));
}

/// A sheet with a folder of texts; two folders, by name; a text that is not there.
#[test]
fn grades_of_folders() {
    let folder = Folder::new("grades");
    let lobby = run(&["write", "-"], &example("lobby.txt")).stdout;
    folder.put("sheets/least.sheet", &lobby);
    folder.put("sheets/in/refusal_19_few.sheet", &lobby);
    folder.put("sheets/none.sheet", &lobby);
    folder.put("sent/least.txt", &example("grades/least.txt"));
    folder.put(
        "sent/in/refusal_19_few.txt",
        &example("grades/refusal_19_few.txt"),
    );
    let [sheets, sent] = ["sheets", "sent"].map(|name| format!("{}/{name}", folder.path()));
    let output = run(&["grade", &sheets, &sent], b"");
    let said = "\
sheets/in/refusal_19_few.sheet, sent/in/refusal_19_few.txt: refused 19 at 0: Car 1: it is idle, but has no column.
sheets/least.sheet, sent/least.txt: least, total 800000, the least: that of the pass
sheets/none.sheet, sent/none.txt: not read: sent/none.txt: there is no such file or folder
";
    assert_eq!(folder.said(&output.stdout), said);
    let summary = "3 choices: 1 least, 0 not shown, 1 refused (19: 1), 1 not read\n";
    assert_eq!(
        (text(&output.stderr), code(&output)),
        (summary.into(), Some(1))
    );
    let one = format!("{sheets}/least.sheet");
    let output = run(&["grade", &one, &sent, "--csv"], b"");
    let said = "\
file,status,refusal,offset,why,grades,total,is_least,sentence
sheets/least.sheet,refused,19,0,,sent/in/refusal_19_few.txt,,,\"Car 1: it is idle, but has no column.\"
sheets/least.sheet,least,,,,sent/least.txt,800000,true,
";
    assert_eq!(folder.said(&output.stdout), said);
    let output = run(&["grade", &sheets, &format!("{sent}/least.txt")], b"");
    assert!(text(&output.stdout).ends_with("a folder of sheets needs a folder of texts\n"));
    assert_eq!(code(&output), Some(1));
}

#[test]
fn what_has_no_meaning() {
    let lobby = here("examples/lobby.txt");
    let lobby = lobby.to_str().unwrap();
    for (args, status, said) in [
        (
            &["pass", lobby, "--jobs", "0"][..],
            1,
            "\"0\": expected a number of workers, 1 to 65,535\n",
        ),
        (
            &["pass", "-", "-"],
            1,
            "- stands for more than one file: standard input is read once\n",
        ),
    ] {
        let output = run(args, b"");
        assert_eq!(
            (code(&output), &*text(&output.stderr)),
            (Some(status), said)
        );
    }
    let both = run(&["pass", lobby, "--json", "--csv"], b"");
    assert_eq!(code(&both), Some(2));
    let why = "sheet: --json and --csv are two forms: name one\n";
    assert!(text(&both.stderr).starts_with(why));
    let rates = ["--acceleration", "1", "--deceleration", "1"];
    let output = run(&[&["pass", lobby, lobby][..], &rates].concat(), b"");
    assert_eq!(code(&output), Some(1));
    assert!(text(&output.stderr).ends_with("are printed with --json\n"));
}

#[test]
fn objects() {
    let folder = some_files("json");
    for (name, stored) in [
        ("pass", "tests/many/pass.json"),
        ("explain", "tests/many/explain.json"),
    ] {
        let output = run(&[name, folder.path(), "--json"], b"");
        let said = folder.said(&output.stdout);
        is_json(&said);
        stored_as(stored, &said);
    }
    let lobby = folder.0.join("b/lobby.txt");
    let rates = ["--acceleration", "1", "--deceleration", "1.2", "--json"];
    let output = run(
        &[&["pass", lobby.to_str().unwrap()][..], &rates].concat(),
        b"",
    );
    let said =
        "\"decisions\":[{\"car\":1,\"stop\":1,\"cell\":\"0\",\"seconds\":3.833333333333333},";
    assert!(
        text(&output.stdout).contains(said),
        "{}",
        text(&output.stdout)
    );
}

#[test]
fn rows() {
    let folder = some_files("csv");
    for (name, stored) in [
        ("pass", "tests/many/pass.csv"),
        ("explain", "tests/many/explain.csv"),
    ] {
        let output = run(&[name, folder.path(), "--csv"], b"");
        let said = folder.said(&output.stdout);
        stored_as(stored, &said);
        let bare = run(&[name, folder.path(), "--csv", "--lines"], b"");
        let (_, rows) = said.split_once('\n').unwrap();
        assert_eq!(folder.said(&bare.stdout), rows);
    }
}

#[test]
fn matrices() {
    let closed = here("examples/closed_landing.txt");
    let closed = closed.to_str().unwrap();
    let said = "        stop 1   spare\ncar 1        0*      -\ncar 2  1200000       -\n*: the car is sent there. -: no rank. A cost of 1 is 1,000,000.\n";
    let output = run(&["matrix", closed], b"");
    assert_eq!((&*text(&output.stdout), code(&output)), (said, Some(0)));
    let rows = "car,sent,stop 1,spare\n1,1,0,281474976710656\n2,,1200000,281474976710656\n";
    assert_eq!(text(&run(&["matrix", closed, "--csv"], b"").stdout), rows);
    let object = text(&run(&["matrix", closed, "--json"], b"").stdout);
    is_json(&object);
    let said = "\"status\":\"accepted\",\"refusal\":null,\"offset\":null,\"pending\":[1],\"columns\":2,\"sentinel\":\"281474976710656\",\"rows\":[{\"car\":1,\"stop\":1,\"cells\":[\"0\",\"281474976710656\"]},{\"car\":2,\"stop\":null,\"cells\":[\"1200000\",\"281474976710656\"]}]}\n";
    assert!(object.ends_with(said), "{object}");
    let old = run(&["matrix", "-", "--json"], &[3, 0, 0]);
    let said = "{\"file\":\"-\",\"status\":\"refused\",\"refusal\":3,\"offset\":0,\"pending\":null,\"columns\":null,\"sentinel\":\"281474976710656\",\"rows\":null}\n";
    assert_eq!(text(&old.stdout), said);
    let words = run(&["matrix", "-"], &[3, 0, 0]);
    assert_eq!(text(&words.stdout), "refused 3 at 0\n");
}
