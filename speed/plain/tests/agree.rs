//! The plain interpreter answers what the second program answers: runs down and up, places and stores.
#![forbid(unsafe_code)]

use plain::machine::{Frame, Machine};
use plain::program::Program;
use second::place::{Direction, Place};
use second::rng::Rng;
use second::{check::check, examples, generator, machine, program, workloads};

const FRAMES: [fn(usize) -> Frame; 5] = [
    Frame::True,
    Frame::False,
    Frame::First,
    Frame::Second,
    Frame::Call,
];

/// The innermost last.
fn frames(place: &Place) -> Vec<Frame> {
    let outwards = place.frames.iter();
    let frame = |frame: &second::place::Frame| FRAMES[usize::from(frame.kind)](frame.label.into());
    outwards.rev().map(frame).collect()
}

/// The same run by both: steps, reason, record met next, direction, frames, every cell.
fn agree(file: &[u8], told: &program::Program, from: &Place, store: &[i32], n: u32) {
    let decoded = Program::decode(file);
    let mut plain = Machine::start(&decoded);
    (plain.label, plain.down) = (from.b.into(), from.direction == Direction::Down);
    plain.frames = frames(from);
    let is_call = |frame: &&Frame| matches!(frame, Frame::Call(_));
    plain.calls = plain.frames.iter().filter(is_call).count();
    let mut cells = store.iter();
    let arrays = plain.store.arrays.iter_mut().flatten();
    for (cell, value) in plain.store.scalars.iter_mut().chain(arrays).zip(&mut cells) {
        *cell = *value;
    }
    assert!(cells.next().is_none());
    let (steps, stop) = plain.run(n);

    let mut expected = store.to_vec();
    let ran = machine::run(told, from, &mut expected, n);
    let reason = ran.reason.map_or(0, |number| number.value());
    assert_eq!(
        (steps, stop.map_or(0, |stop| stop as u8)),
        (ran.steps, reason),
        "{file:?}"
    );
    assert_eq!(plain.label, usize::from(ran.place.b), "{file:?}");
    assert_eq!(
        plain.down,
        ran.place.direction == Direction::Down,
        "{file:?}"
    );
    assert_eq!(plain.frames, frames(&ran.place), "{file:?}");
    let cells = plain
        .store
        .scalars
        .into_iter()
        .chain(plain.store.arrays.into_iter().flatten());
    assert_eq!(cells.collect::<Vec<_>>(), expected, "{file:?}");
}

#[test]
fn it_runs_generated_programs_alike() {
    let mut rng = Rng::new(22);
    for _ in 0..1_500 {
        let file = generator::program(&mut rng).encode();
        let told = check(&file).expect("sound");
        for n in [1, 2, 30, 2_000] {
            let from = generator::place(&mut rng, &told);
            let store = generator::store(&mut rng, told.cells());
            agree(&file, &told, &from, &store, n);
        }
    }
}

#[test]
fn it_runs_examples_and_workloads_alike() {
    let examples = examples::all().into_iter().map(|example| example.tree);
    let workloads = workloads::all().into_iter().map(|workload| workload.tree);
    for tree in examples.chain(workloads) {
        let file = tree.encode();
        let told = check(&file).expect("sound");
        for way in [Direction::Down, Direction::Up] {
            let start = Place::start(&told, way);
            for n in [0, 1, 50, 20_003] {
                agree(&file, &told, &start, &vec![0; told.cells()], n);
            }
        }
    }
}
