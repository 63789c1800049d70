//! Session files read and saved, and the order 1 to 8, 22, 20, 21, 23 in every call.
#![forbid(unsafe_code)]

mod common;

use common::{lent, Bench};
use second::builder::*;
use second::calls;
use second::cases::nested;
use second::lent::LentPlace;
use second::number::{Number, Refusal};
use second::place::{Direction, Frame, Place};
use second::session::Session;

const DOWN: Direction = Direction::Down;

fn save_all(bench: &Bench) -> Vec<u8> {
    let mut buffer = vec![0; 70_000];
    let answer = calls::save(&bench.file, &bench.place, &bench.store, &mut buffer);
    assert_eq!(answer.refusal, None);
    buffer.truncate(answer.written);
    buffer
}

/// The number that a reading of these bytes by the program is refused with, 0 where it is not.
fn reading(file: &[u8], saved: &[u8], cells: usize) -> u8 {
    let untouched = vec![-77; cells];
    let mut store = untouched.clone();
    let answer = calls::read(file, saved, &mut store);
    if answer.refusal.is_some() {
        assert_eq!(answer.place, LentPlace::blank());
        assert_eq!(store, untouched);
    }
    answer.refusal.map_or(0, |refusal| {
        assert_eq!(refusal.record, None);
        refusal.number.value()
    })
}

/// The example in its loop: 3:4 down, frame 2 of 3, cells 1 and -2.
fn in_the_loop() -> Bench {
    let mut bench = Bench::down(&example());
    bench.place = lent(DOWN, 3, 4, &[(2, 3)]);
    bench.store = vec![1, -2];
    bench
}

const SAVED: [u8; 28] = [
    16, 0, 32, 0, 0, 0, 3, 0, 4, 0, 1, 0, 2, 0, 3, 0, // PLACE
    12, 0, 33, 0, 1, 0, 0, 0, 254, 255, 255, 255, // STORE
];

#[test]
fn a_saved_session_has_these_bytes_and_reads_back() {
    let bench = in_the_loop();
    assert_eq!(save_all(&bench), SAVED);
    let mut store = vec![0, 0];
    let answer = calls::read(&bench.file, &SAVED, &mut store);
    assert_eq!(answer.refusal, None);
    assert_eq!(answer.place, bench.place);
    assert_eq!(store, bench.store);
}

#[test]
fn frames_stand_innermost_first_and_up_is_1() {
    let two = nested(2, Node::Skip);
    let mut bench = Bench::down(&tree(0, &[], vec![vec![two]]));
    assert_eq!(bench.run(2), (2, 0));
    bench.place = LentPlace::of(&bench.place.place().expect("a place").turned());
    let expected = [
        20, 0, 32, 0, 1, 0, 4, 0, 3, 0, 2, 0, 0, 0, 3, 0, 2, 0, 2, 0, 4, 0, 33, 0,
    ];
    assert_eq!(save_all(&bench), expected);
}

#[test]
fn every_cut_of_a_session_is_22() {
    let file = example().encode();
    assert_eq!(reading(&file, &SAVED, 2), 0);
    for length in 0..SAVED.len() {
        assert_eq!(reading(&file, &SAVED[..length], 2), 22, "{length} bytes");
    }
    for more in 1..5 {
        let long = [&SAVED[..], &vec![0; more]].concat();
        assert_eq!(reading(&file, &long, 2), 22, "{more} bytes more");
    }
    let twice = [&SAVED[..], &SAVED[16..]].concat();
    assert_eq!(reading(&file, &twice, 2), 22);
}

#[test]
fn every_field_of_a_session_at_its_fault() {
    let file = example().encode();
    let with = |changes: &[(usize, u8)]| {
        let mut saved = SAVED;
        for &(at, value) in changes {
            saved[at] = value;
        }
        reading(&file, &saved, 2)
    };
    let malformed: [(&str, &[(usize, u8)]); 14] = [
        ("PLACE length 15", &[(0, 15)]),
        ("PLACE length 17", &[(0, 17)]),
        ("PLACE length 3", &[(0, 3)]),
        ("PLACE kind 33", &[(2, 33)]),
        ("PLACE kind 1", &[(2, 1)]),
        ("PLACE kind 32 + 256", &[(3, 1)]),
        ("direction 2", &[(4, 2)]),
        ("direction 255", &[(4, 255)]),
        ("spare byte", &[(5, 1)]),
        ("a frame too few", &[(10, 2)]),
        ("a frame too many", &[(10, 0)]),
        ("frame kind 5", &[(12, 5)]),
        ("frame kind 256", &[(12, 0), (13, 1)]),
        ("STORE kind 32", &[(18, 32)]),
    ];
    for (name, changes) in malformed {
        assert_eq!(with(changes), 22, "{name}");
    }
    let unfit: [(&str, &[(usize, u8)]); 8] = [
        ("direction up", &[(4, 1)]),
        ("a", &[(6, 2)]),
        ("a out of range", &[(7, 255)]),
        ("b", &[(8, 5)]),
        ("b out of range", &[(9, 255)]),
        ("frame kind 4", &[(12, 4)]),
        ("frame label", &[(14, 4)]),
        ("frame label out of range", &[(15, 255)]),
    ];
    for (name, changes) in unfit {
        assert_eq!(with(changes), 21, "{name}");
    }
    let sound: [&[(usize, u8)]; 2] = [&[(20, 9), (27, 128)], &[(6, 3), (8, 4)]];
    for changes in sound {
        assert_eq!(with(changes), 0);
    }
}

fn file_of(place: Place, cells: usize) -> Vec<u8> {
    let store = vec![0; cells];
    Session { place, store }.encode()
}

fn example_start() -> Place {
    calls::start(&example().encode(), DOWN).expect("sound")
}

#[test]
fn a_store_of_another_length_is_20() {
    let file = example().encode();
    for cells in [0, 1, 3, 2048, 2049, 16_382] {
        assert_eq!(
            reading(&file, &file_of(example_start(), cells), 2),
            20,
            "{cells}"
        );
    }
    assert_eq!(reading(&file, &file_of(example_start(), 2), 2), 0);
}

#[test]
fn a_broken_cell_is_22() {
    let file = example().encode();
    let start = file_of(example_start(), 2);
    for odd in 1..4 {
        let mut saved = [&start[..], &vec![0; odd]].concat();
        saved[12] += odd as u8;
        assert_eq!(reading(&file, &saved, 2), 22, "{odd}");
    }
    let mut longest = [&file_of(example_start(), 16_382)[..], &[0, 0, 0]].concat();
    longest[12] = 255;
    longest[13] = 255;
    assert_eq!(reading(&file, &longest, 2), 22);
}

#[test]
fn a_lent_store_of_another_length_is_20() {
    let file = example().encode();
    assert_eq!(reading(&file, &SAVED, 1), 20);
    assert_eq!(reading(&file, &SAVED, 3), 20);
    assert_eq!(reading(&file, &SAVED, 0), 20);
}

#[test]
fn reading_asks_all_of_22_then_20_then_21() {
    let file = example().encode();
    let unfit = || Place {
        a: 9,
        ..example_start()
    };
    assert_eq!(reading(&file, &file_of(unfit(), 2), 2), 21);
    assert_eq!(reading(&file, &file_of(unfit(), 3), 2), 20);
    assert_eq!(reading(&file, &file_of(unfit(), 2), 3), 20);
    let after = [&file_of(unfit(), 3)[..], &[0]].concat();
    assert_eq!(reading(&file, &after, 3), 22);
    let mut field = file_of(unfit(), 3);
    field[5] = 1;
    assert_eq!(reading(&file, &field, 3), 22);
}

#[test]
fn a_count_of_1104_is_read_and_1105_is_22() {
    let with = |count: usize| {
        let frames = vec![Frame::new(2, 3); count];
        Place {
            frames,
            ..example_start()
        }
    };
    let file = example().encode();
    assert_eq!(reading(&file, &file_of(with(1104), 2), 2), 21);
    assert_eq!(reading(&file, &file_of(with(1105), 2), 2), 22);
    assert_eq!(reading(&file, &file_of(with(1105), 3), 2), 22);
    let body = vec![nested(16, Node::Call(1))];
    let mut bench = Bench::down(&tree(0, &[], vec![body.clone(), body]));
    assert_eq!(bench.run(1_000_000).1, 34);
    assert_eq!(bench.place.count, 1104);
    let saved = save_all(&bench);
    assert_eq!(saved.len(), 12 + 4 * 1104 + 4);
    assert_eq!(calls::read(&bench.file, &saved, &mut []).place, bench.place);
}

#[test]
fn sixty_five_calls_in_a_file_are_21() {
    let body = vec![Node::Call(1)];
    let recursion = tree(0, &[], vec![body.clone(), body]).encode();
    let with = |calls: usize| {
        let mut frames = vec![Frame::new(4, 5); calls - 1];
        frames.push(Frame::new(4, 2));
        Place {
            direction: DOWN,
            a: 4,
            b: 5,
            frames,
        }
    };
    assert_eq!(reading(&recursion, &file_of(with(64), 0), 0), 0);
    assert_eq!(reading(&recursion, &file_of(with(65), 0), 0), 21);
}

#[test]
fn a_save_needs_room_and_keeps_what_lies_after() {
    let bench = in_the_loop();
    let save = |size: usize| {
        let mut buffer = vec![0xEE; size];
        let answer = calls::save(&bench.file, &bench.place, &bench.store, &mut buffer);
        (answer, buffer)
    };
    let (answer, buffer) = save(30);
    assert_eq!((answer.written, answer.refusal), (28, None));
    assert_eq!(buffer, [&SAVED[..], &[0xEE, 0xEE]].concat());
    assert_eq!(save(28).1, SAVED);
    for size in [0, 1, 27] {
        let (answer, buffer) = save(size);
        assert_eq!(answer.written, 0);
        assert_eq!(answer.refusal, Some(Refusal::plain(Number::BufferTooShort)));
        assert_eq!(buffer, vec![0xEE; size]);
    }
}

#[test]
fn a_save_asks_20_then_21_then_23() {
    let file = example().encode();
    let unfit = LentPlace::blank();
    let sound = lent(DOWN, 1, 2, &[]);
    let save = |place: &LentPlace, cells: usize| {
        let mut buffer = [1; 3];
        let answer = calls::save(&file, place, &vec![0; cells], &mut buffer);
        assert_eq!((answer.written, buffer), (0, [1; 3]));
        answer.refusal.expect("refused").number.value()
    };
    assert_eq!(save(&unfit, 3), 20);
    assert_eq!(save(&unfit, 2), 21);
    assert_eq!(save(&sound, 2), 23);
    assert_eq!(save(&sound, 1), 20);
}

#[test]
fn a_move_asks_20_then_21_and_a_run_of_none_too() {
    let file = example().encode();
    let unfit = LentPlace::blank();
    for (cells, number) in [(3, Number::StoreLength), (2, Number::PlaceDoesNotFit)] {
        let refusal = Some(Refusal::plain(number));
        let mut store = vec![4; cells];
        assert_eq!(calls::step(&file, &unfit, &mut store).refusal, refusal);
        assert_eq!(calls::back(&file, &unfit, &mut store).refusal, refusal);
        for n in [0, 1, u32::MAX] {
            for run in [calls::run, calls::run_back] {
                let answer = run(&file, &unfit, &mut store, n);
                assert_eq!((answer.steps, answer.refusal), (0, refusal));
                assert_eq!(answer.place, unfit);
            }
        }
        assert_eq!(store, vec![4; cells]);
    }
}

#[test]
fn every_call_checks_the_program_first_and_carries_its_record() {
    let own = tree(1, &[], vec![vec![Node::Skip, plus(0, scalar(0))]]).encode();
    let refusal = Refusal::at(Number::OwnName, 3);
    let unfit = LentPlace::blank();
    let mut store = vec![5; 9];
    assert_eq!(calls::start(&own, DOWN), Err(refusal));
    assert_eq!(calls::fits(&own, &unfit), Err(refusal));
    let step = calls::step(&own, &unfit, &mut store);
    assert_eq!((step.refusal, step.place), (Some(refusal), unfit.clone()));
    let back = calls::back(&own, &unfit, &mut store);
    assert_eq!((back.refusal, back.place), (Some(refusal), unfit.clone()));
    let run = calls::run(&own, &unfit, &mut store, 0);
    assert_eq!((run.steps, run.refusal), (0, Some(refusal)));
    let read = calls::read(&own, &[1, 2, 3], &mut store);
    assert_eq!(read.refusal, Some(refusal));
    let save = calls::save(&own, &unfit, &store, &mut []);
    assert_eq!((save.written, save.refusal), (0, Some(refusal)));
    assert_eq!(store, vec![5; 9]);
}
