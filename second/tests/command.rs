//! The command line, run as a program: words, formats, statuses, files and the order of complaints.
#![forbid(unsafe_code)]

use second::builder::*;
use second::cases::file_of_size;
use second::command::USAGE;
use std::fs;
use std::io::Write;
use std::path::{Path, PathBuf};
use std::process::{Command, Output, Stdio};

struct Said {
    out: String,
    err: String,
    status: i32,
}

fn said(output: Output) -> Said {
    Said {
        out: String::from_utf8(output.stdout).expect("text"),
        err: String::from_utf8(output.stderr).expect("text"),
        status: output.status.code().expect("a status"),
    }
}

/// A folder of one test, removed at its end.
struct Folder(PathBuf);

impl Folder {
    fn new(name: &str) -> Folder {
        let path = Path::new(env!("CARGO_TARGET_TMPDIR")).join(name);
        let _ = fs::remove_dir_all(&path);
        fs::create_dir_all(&path).expect("a folder");
        Folder(path)
    }

    /// Words with a dot name files of this folder.
    fn second(&self, words: &str) -> Said {
        let output = Command::new(env!("CARGO_BIN_EXE_second"))
            .args(words.split_whitespace())
            .current_dir(&self.0)
            .stdin(Stdio::null())
            .output();
        said(output.expect("the program runs"))
    }

    /// What a command says that succeeds or is refused.
    fn out(&self, words: &str) -> String {
        let said = self.second(words);
        assert_eq!((said.err.as_str(), said.status), ("", 0), "{words}");
        said.out
    }

    fn write(&self, name: &str, bytes: &[u8]) {
        fs::write(self.0.join(name), bytes).expect("written");
    }

    fn read(&self, name: &str) -> Vec<u8> {
        fs::read(self.0.join(name)).expect("read")
    }

    fn names(&self) -> Vec<String> {
        let entries = fs::read_dir(&self.0).expect("a folder");
        let mut names: Vec<String> = entries
            .map(|entry| {
                entry
                    .expect("an entry")
                    .file_name()
                    .into_string()
                    .expect("text")
            })
            .collect();
        names.sort();
        names
    }
}

impl Drop for Folder {
    fn drop(&mut self) {
        let _ = fs::remove_dir_all(&self.0);
    }
}

/// A folder with the example as p.lad and a session at its start as s.ses.
fn with_example(name: &str) -> Folder {
    let folder = Folder::new(name);
    folder.write("p.lad", &example().encode());
    assert_eq!(folder.out("start p.lad s.ses"), "at 1 2 down\n");
    folder
}

fn run_on(input: &[u8]) -> Said {
    said_on("run", input)
}

/// What a command says with this standard input.
fn said_on(words: &str, input: &[u8]) -> Said {
    let mut child = Command::new(env!("CARGO_BIN_EXE_second"))
        .args(words.split_whitespace())
        .stdin(Stdio::piped())
        .stdout(Stdio::piped())
        .stderr(Stdio::piped())
        .spawn()
        .expect("the program runs");
    let mut stdin = child.stdin.take().expect("its input");
    let input = input.to_vec();
    // The program may stop reading before the end of a file that is too long.
    let writer = std::thread::spawn(move || stdin.write_all(&input).ok());
    let output = child.wait_with_output().expect("its output");
    writer.join().expect("written");
    said(output)
}

#[test]
fn run_prints_the_document_s_output() {
    let said = run_on(&example().encode());
    assert_eq!(
        said.out,
        "steps 12 stop 30\nat 7 8 down\ncell 0 3\ncell 1 3\n"
    );
    assert_eq!((said.err.as_str(), said.status), ("", 0));
}

#[test]
fn recheck_counts_what_it_accepts_and_ends_on_the_file_itself() {
    let said = said_on("recheck 5", &example().encode());
    assert_eq!(said.out, "calls 5 accepted 5 last 0 0\n");
    assert_eq!((said.err.as_str(), said.status), ("", 0));
    assert_eq!(
        said_on("recheck 4", &[]).out,
        "calls 4 accepted 0 last 6 0\n"
    );
    // Without its scalar the SET is 7, and each odd turn has it again.
    let mut lacking = tree(1, &[], vec![vec![plus(0, constant(1))]]).encode();
    lacking[4] = 0;
    assert_eq!(
        said_on("recheck 7", &lacking).out,
        "calls 7 accepted 3 last 7 2\n"
    );
}

#[test]
fn a_sized_file_is_accepted_and_nearly_that_long() {
    for size in [1_024, 8_192, 32_768] {
        let file = second::recheck::sized(size).expect("a file");
        assert!(
            file.len() <= size && file.len() + 300 > size,
            "{}",
            file.len()
        );
        assert_eq!(
            said_on("recheck 2", &file).out,
            "calls 2 accepted 2 last 0 0\n"
        );
    }
    assert_eq!(second::recheck::sized(10), None);
}

#[test]
fn run_refuses_with_one_line() {
    assert_eq!(run_on(&[]).out, "refused 6 record 0\n");
    assert_eq!(run_on(&[1]).out, "refused 2 record 0\n");
    assert_eq!(run_on(&file_of_size(32_769)).out, "refused 1 record 0\n");
    assert_eq!(run_on(&vec![0; 1_000_000]).out, "refused 1 record 0\n");
    let full = run_on(&file_of_size(32_768)).out;
    assert!(full.starts_with("steps 1 stop 30\nat 2 3 down\n"), "{full}");
}

#[test]
fn run_stops_at_a_million_steps() {
    let skip = || vec![Node::Skip];
    let entered = equal(scalar(0), constant(0));
    let first = vec![plus(0, constant(-1))];
    let endless = Node::From(entered, first, skip(), constant(0));
    let said = run_on(&tree(1, &[], vec![vec![endless]]).encode());
    assert_eq!(
        said.out,
        "steps 1000000 stop 0\nat 5 2 down\ncell 0 -250000\n"
    );
}

#[test]
fn run_prints_the_least_value() {
    let body = vec![
        plus_at(0, constant(3), constant(i32::MIN)),
        minus(1, constant(1)),
    ];
    let said = run_on(&tree(2, &[4], vec![body]).encode());
    assert_eq!(
        said.out,
        "steps 2 stop 30\nat 3 4 down\ncell 1 -1\ncell 5 -2147483648\n"
    );
}

#[test]
fn check_answers_counts_or_the_refusal() {
    let folder = Folder::new("check");
    folder.write("p.lad", &example().encode());
    folder.write("bad.lad", &example().encode()[..75]);
    folder.write("long.lad", &vec![0; 40_000]);
    folder.write("empty.lad", &[]);
    assert_eq!(
        folder.out("check p.lad"),
        "accepted records 9 procedures 1 cells 2\n"
    );
    assert_eq!(folder.out("check bad.lad"), "refused 2 record 8\n");
    assert_eq!(folder.out("check long.lad"), "refused 1 record 0\n");
    assert_eq!(folder.out("check empty.lad"), "refused 6 record 0\n");
}

#[test]
fn a_session_walks_there_and_back() {
    let folder = with_example("walk");
    let start = folder.read("s.ses");
    assert_eq!(
        folder.out("step p.lad s.ses"),
        "steps 1 stop 0\nat 2 3 down\n"
    );
    assert_eq!(
        folder.out("step p.lad s.ses 3"),
        "steps 3 stop 0\nat 7 6 down\n"
    );
    assert_eq!(
        folder.out("show p.lad s.ses"),
        "at 7 6 down\nframe 3 3\ncell 0 1\ncell 1 3\n"
    );
    assert_eq!(
        folder.out("back p.lad s.ses"),
        "steps 1 stop 0\nat 4 7 down\n"
    );
    assert_eq!(
        folder.out("step p.lad s.ses 0"),
        "steps 0 stop 0\nat 4 7 down\n"
    );
    assert_eq!(
        folder.out("step p.lad s.ses 4294967295"),
        "steps 9 stop 30\nat 7 8 down\n"
    );
    assert_eq!(
        folder.out("step p.lad s.ses"),
        "steps 0 stop 30\nat 7 8 down\n"
    );
    assert_eq!(
        folder.out("back p.lad s.ses 0000000012"),
        "steps 12 stop 0\nat 1 2 down\n"
    );
    assert_eq!(folder.read("s.ses"), start);
    assert_eq!(
        folder.out("back p.lad s.ses 5"),
        "steps 0 stop 30\nat 1 2 down\n"
    );
    assert_eq!(folder.out("show p.lad s.ses"), "at 1 2 down\n");
    assert_eq!(folder.names(), ["p.lad", "s.ses"]);
}

#[test]
fn start_takes_a_direction_and_replaces_anything() {
    let folder = Folder::new("start");
    folder.write("p.lad", &example().encode());
    folder.write("s.ses", b"no session at all");
    assert_eq!(folder.out("start p.lad s.ses up"), "at 8 7 up\n");
    let up = [
        12, 0, 32, 0, 1, 0, 8, 0, 7, 0, 0, 0, 12, 0, 33, 0, 0, 0, 0, 0, 0, 0, 0, 0,
    ];
    assert_eq!(folder.read("s.ses"), up);
    assert_eq!(folder.out("start p.lad s.ses down"), "at 1 2 down\n");
    let down = [
        12, 0, 32, 0, 0, 0, 1, 0, 2, 0, 0, 0, 12, 0, 33, 0, 0, 0, 0, 0, 0, 0, 0, 0,
    ];
    assert_eq!(folder.read("s.ses"), down);
    assert_eq!(folder.names(), ["p.lad", "s.ses"]);
}

#[test]
fn a_session_started_up_moves_up() {
    let folder = Folder::new("up");
    folder.write("p.lad", &example().encode());
    folder.out("start p.lad s.ses up");
    folder.out("set p.lad s.ses 0 3");
    folder.out("set p.lad s.ses 1 3");
    assert_eq!(
        folder.out("step p.lad s.ses 99"),
        "steps 12 stop 30\nat 2 1 up\n"
    );
    assert_eq!(folder.out("show p.lad s.ses"), "at 2 1 up\n");
}

#[test]
fn set_changes_one_cell_and_says_nothing() {
    let folder = with_example("set");
    assert_eq!(folder.out("set p.lad s.ses 0 -2147483648"), "");
    assert_eq!(folder.out("set p.lad s.ses 1 2147483647"), "");
    let shown = "at 1 2 down\ncell 0 -2147483648\ncell 1 2147483647\n";
    assert_eq!(folder.out("show p.lad s.ses"), shown);
    assert_eq!(folder.out("set p.lad s.ses 0000000000 -0"), "");
    assert_eq!(folder.out("set p.lad s.ses 01 0000000007"), "");
    assert_eq!(folder.out("show p.lad s.ses"), "at 1 2 down\ncell 1 7\n");
}

#[test]
fn wrong_words_touch_no_file() {
    let folder = with_example("words");
    let before = folder.read("s.ses");
    let wrong = [
        "",
        "walk",
        "Run",
        "run p.lad",
        "check",
        "check p.lad s.ses",
        "start p.lad",
        "start p.lad s.ses left",
        "start p.lad s.ses Down",
        "start p.lad s.ses up up",
        "step p.lad",
        "step p.lad s.ses -1",
        "step p.lad s.ses +1",
        "step p.lad s.ses x",
        "step p.lad s.ses 1x",
        "step p.lad s.ses 4294967296",
        "step p.lad s.ses 9999999999",
        "step p.lad s.ses 00000000001",
        "step p.lad s.ses 1 1",
        "back p.lad s.ses 1.0",
        "back p.lad s.ses 0x1",
        "set p.lad s.ses 0",
        "set p.lad s.ses 0 0 0",
        "set p.lad s.ses -1 0",
        "set p.lad s.ses a 0",
        "set p.lad s.ses 4294967296 0",
        "set p.lad s.ses 0 2147483648",
        "set p.lad s.ses 0 -2147483649",
        "set p.lad s.ses 0 -",
        "set p.lad s.ses 0 --1",
        "set p.lad s.ses 0 +1",
        "set p.lad s.ses 0 1-",
        "set p.lad s.ses 0 00000000001",
        "show p.lad",
        "show p.lad s.ses s.ses",
        "step gone.lad gone.ses x",
    ];
    for words in wrong {
        let said = folder.second(words);
        assert_eq!(said.err, format!("{USAGE}\n"), "{words}");
        assert_eq!((said.out.as_str(), said.status), ("", 2), "{words}");
    }
    assert_eq!(folder.read("s.ses"), before);
    assert_eq!(folder.names(), ["p.lad", "s.ses"]);
}

#[test]
fn an_empty_number_is_wrong_words() {
    let folder = with_example("empty-number");
    for words in [
        ["step", "p.lad", "s.ses", ""],
        ["start", "p.lad", "s.ses", ""],
    ] {
        let output = Command::new(env!("CARGO_BIN_EXE_second"))
            .args(words)
            .current_dir(&folder.0)
            .output();
        assert_eq!(said(output.expect("the program runs")).status, 2);
    }
}

#[test]
fn a_cell_that_is_not_there_is_the_last_complaint() {
    let folder = with_example("cell");
    let before = folder.read("s.ses");
    for cell in ["2", "2048", "4294967295"] {
        let said = folder.second(&format!("set p.lad s.ses {cell} 1"));
        assert_eq!((said.out.as_str(), said.status), ("", 2));
        assert_eq!(said.err, format!("{USAGE}\n"));
    }
    assert_eq!(folder.read("s.ses"), before);
    folder.write("s.ses", &before[..23]);
    assert_eq!(folder.out("set p.lad s.ses 2 1"), "refused 22\n");
    let mut unfit = before.clone();
    unfit[6] = 9;
    folder.write("s.ses", &unfit);
    assert_eq!(folder.out("set p.lad s.ses 2 1"), "refused 21\n");
}

#[test]
fn a_file_that_cannot_be_read_is_named() {
    let folder = with_example("gone");
    folder.write("bad.lad", &[1]);
    let cases = [
        ("check gone.lad", "gone.lad"),
        ("start gone.lad s.ses", "gone.lad"),
        ("step gone.lad gone.ses", "gone.lad"),
        ("step p.lad gone.ses", "gone.ses"),
        // Both files are read before the program is checked.
        ("back bad.lad gone.ses", "gone.ses"),
        ("set p.lad gone.ses 9 1", "gone.ses"),
        ("show p.lad gone.ses", "gone.ses"),
        ("show . s.ses", "."),
    ];
    for (words, name) in cases {
        let said = folder.second(words);
        let start = format!("second: {name}: ");
        assert!(said.err.starts_with(&start), "{words}: {}", said.err);
        assert!(said.err.len() > start.len() + 1 && said.err.ends_with('\n'));
        assert_eq!((said.out.as_str(), said.status), ("", 1), "{words}");
    }
    assert_eq!(folder.names(), ["bad.lad", "p.lad", "s.ses"]);
}

#[test]
fn a_session_that_cannot_be_written_is_named() {
    let folder = Folder::new("unwritable");
    folder.write("p.lad", &example().encode());
    fs::create_dir(folder.0.join("s.ses")).expect("a folder");
    for words in ["start p.lad s.ses", "start p.lad none/s.ses"] {
        let name = words.split_whitespace().last().expect("a word");
        let said = folder.second(words);
        assert!(
            said.err.starts_with(&format!("second: {name}: ")),
            "{}",
            said.err
        );
        assert_eq!((said.out.as_str(), said.status), ("", 1));
    }
    assert_eq!(folder.names(), ["p.lad", "s.ses"]);
}

#[test]
fn a_refusal_leaves_the_session_as_it_was() {
    let folder = with_example("refused");
    let sound = folder.read("s.ses");
    folder.write("bad.lad", &example().encode()[..72]);
    for words in ["start", "step", "back", "show"] {
        let out = folder.out(&format!("{words} bad.lad s.ses"));
        assert_eq!(out, "refused 6 record 8\n", "{words}");
    }
    assert_eq!(folder.out("set bad.lad s.ses 0 1"), "refused 6 record 8\n");
    assert_eq!(folder.read("s.ses"), sound);
    let mut unfit = sound.clone();
    unfit[8] = 9;
    let short = [&sound[..12], &[8, 0, 33, 0, 0, 0, 0, 0]].concat();
    let long = [&sound[..], &[0; 80_000]].concat();
    for (saved, number) in [(unfit, 21), (short, 20), (long, 22), (vec![], 22)] {
        folder.write("s.ses", &saved);
        for words in ["step", "back", "show"] {
            let out = folder.out(&format!("{words} p.lad s.ses"));
            assert_eq!(out, format!("refused {number}\n"), "{words}");
        }
        assert_eq!(
            folder.out("set p.lad s.ses 0 1"),
            format!("refused {number}\n")
        );
        assert_eq!(folder.read("s.ses"), saved);
    }
    assert_eq!(folder.names(), ["bad.lad", "p.lad", "s.ses"]);
}

#[test]
fn program_faults_come_before_session_faults() {
    let folder = Folder::new("before");
    folder.write("bad.lad", &[4, 0, 14, 0]);
    folder.write("s.ses", &[1]);
    for words in [
        "step bad.lad s.ses",
        "show bad.lad s.ses",
        "set bad.lad s.ses 9 9",
    ] {
        assert_eq!(folder.out(words), "refused 3 record 0\n");
    }
}

#[test]
fn show_lists_frames_innermost_first() {
    let folder = Folder::new("frames");
    let skip = || vec![Node::Skip];
    let one = Node::If(constant(0), skip(), skip(), constant(0));
    let main = Node::From(constant(1), vec![Node::Call(1)], skip(), constant(1));
    folder.write("p.lad", &tree(1, &[], vec![vec![main], vec![one]]).encode());
    folder.out("start p.lad s.ses");
    assert_eq!(
        folder.out("step p.lad s.ses 3"),
        "steps 3 stop 0\nat 9 12 down\n"
    );
    let shown = "at 9 12 down\nframe 1 9\nframe 4 3\nframe 2 2\n";
    assert_eq!(folder.out("show p.lad s.ses"), shown);
}
