//! The rival answers what the second program answers: checks, runs both ways, places and stores.
#![forbid(unsafe_code)]

use rival::machine::{run, Place};
use rival::map::{Program, MAX_CELLS};
use second::check::check;
use second::generator;
use second::machine;
use second::place::{Direction, Frame};
use second::rng::Rng;
use second::vectors::{check_answer, from_hex, Family};
use second::{examples, place, program, workloads};
use std::fs;
use std::io::Write;
use std::path::Path;
use std::process::{Command, Stdio};

#[test]
fn it_accepts_and_refuses_the_same_files() {
    let cases = Family::Check.cases();
    for line in cases.lines() {
        let file = from_hex(line).expect("a case");
        let expected = check_answer(&file);
        match Program::new(&file) {
            Ok(_) => assert!(expected.starts_with("accepted "), "{line} {expected}"),
            Err((number, record)) => {
                assert_eq!(format!("refused {number} {record}"), expected, "{line}")
            }
        }
    }
}

fn rivals(place: &place::Place) -> Place {
    let mut own = Place::start();
    own.direction = usize::from(place.direction.code());
    (own.a, own.b, own.count) = (place.a, place.b, place.frames.len());
    for (slot, frame) in place.frames.iter().rev().enumerate() {
        (own.kinds[slot], own.labels[slot]) = (frame.kind, frame.label);
    }
    own
}

fn seconds(place: &Place) -> place::Place {
    let frame = |slot: usize| Frame::new(place.kinds[slot], place.labels[slot]);
    place::Place {
        direction: Direction::from_code(place.direction as u8).expect("a direction"),
        a: place.a,
        b: place.b,
        frames: (0..place.count).rev().map(frame).collect(),
    }
}

/// The same run by both: steps, reason, place with its unused slots, every cell.
fn agree(file: &[u8], told: &program::Program, from: &place::Place, store: &[i32], n: u32) {
    let mut rival = Program::new(file).expect("sound");
    assert_eq!(rival.cells, store.len());
    let (mut place, mut own) = (rivals(from), [0; MAX_CELLS]);
    own[..store.len()].copy_from_slice(store);
    let (steps, reason) = run(&mut rival, &mut place, &mut own, n);
    let mut expected = store.to_vec();
    let ran = machine::run(told, from, &mut expected, n);
    let stop = ran.reason.map_or(0, |number| number.value());
    assert_eq!((steps, reason), (ran.steps, stop), "{file:?}");
    expected.resize(MAX_CELLS, 0);
    assert_eq!(seconds(&place), ran.place, "{file:?}");
    assert_eq!(own[..], expected, "{file:?}");
    let unused = place.count..;
    assert!(place.kinds[unused.clone()].iter().all(|kind| *kind == 0));
    assert!(place.labels[unused].iter().all(|label| *label == 0));
}

#[test]
fn it_runs_generated_programs_alike() {
    let mut rng = Rng::new(21);
    for _ in 0..1_500 {
        let file = generator::program(&mut rng).encode();
        let told = check(&file).expect("sound");
        for n in [1, 2, 30, 2_000] {
            let from = generator::place(&mut rng, &told);
            let store = generator::store(&mut rng, told.cells());
            agree(&file, &told, &from, &store, n);
        }
    }
}

/// From the start down on zeros, as the program runs them.
fn agree_on_zeros(file: &[u8], counts: &[u32]) {
    let told = check(file).expect("sound");
    let start = place::Place::start(&told, Direction::Down);
    for n in counts {
        agree(file, &told, &start, &vec![0; told.cells()], *n);
    }
}

#[test]
fn it_runs_the_examples_alike() {
    for example in examples::all() {
        agree_on_zeros(&example.tree.encode(), &[0, 1, 50, 1_000_000]);
    }
}

#[test]
fn it_runs_the_workloads_alike_and_the_files_are_the_builders() {
    let folder = Path::new(env!("CARGO_MANIFEST_DIR")).join("../workloads");
    for workload in workloads::all() {
        let file = fs::read(folder.join(workload.file_name())).expect("the file");
        assert_eq!(file, workload.tree.encode(), "{}", workload.name);
        agree_on_zeros(&file, &[0, 1, 2, 3, 10, 57, 999, 20_000, 100_003]);
    }
}

#[test]
fn the_workloads_make_more_than_ten_million_steps_and_end() {
    for workload in workloads::all() {
        let mut program = Program::new(&workload.tree.encode()).expect("sound");
        let mut store = [0; MAX_CELLS];
        let (steps, reason) = run(&mut program, &mut Place::start(), &mut store, u32::MAX);
        assert!(steps >= 10_000_000 && reason == 30, "{}", workload.name);
    }
}

/// The built program on a file, as it is used.
fn rival(words: &[&str], file: &[u8]) -> (String, Option<i32>) {
    let mut child = Command::new(env!("CARGO_BIN_EXE_rival"))
        .args(words)
        .stdin(Stdio::piped())
        .stdout(Stdio::piped())
        .stderr(Stdio::null())
        .spawn()
        .expect("the program runs");
    // A program that wants other words does not read its input.
    let _ = child.stdin.take().expect("its input").write_all(file);
    let output = child.wait_with_output().expect("its output");
    let text = String::from_utf8(output.stdout).expect("text");
    (text, output.status.code())
}

#[test]
fn the_program_shows_where_it_stopped_and_its_speed() {
    let file = examples::stop34().tree.encode();
    let (text, status) = rival(&["5", "show"], &file);
    let lines = "steps 5 stop 0\nat 4 5 down\nframe 4 6\nframe 4 6\nframe 4 2\ncell 0 2\n";
    assert_eq!((text.as_str(), status), (lines, Some(0)));
    let (text, status) = rival(&["4294967295"], &file);
    assert!(text.starts_with("steps 128 stop 34\n") && status == Some(0));
    assert!(text.ends_with(" steps a second\n"));
    let (text, status) = rival(&["1"], &file[1..]);
    assert_eq!((text.as_str(), status), ("refused 2 record 0\n", Some(0)));
    for words in [&[][..], &["x"], &["1", "2"], &["4294967296"]] {
        assert_eq!(rival(words, &file), (String::new(), Some(2)));
    }
}
