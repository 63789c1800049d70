//! The examples: each runs to where it stops, with its reason, and back to the start; the files in
//! the repository are the builder's, and the pages show them as they are.
#![forbid(unsafe_code)]

mod common;

use common::Bench;
use second::examples::{self, Example};
use second::rng::Rng;
use std::collections::BTreeMap;
use std::fs;
use std::path::{Path, PathBuf};
use std::process::Command;

/// Name, steps made down from zeros, reason, and the cells that are not 0 (none told where many).
type Stop = (&'static str, u32, u8, &'static [(usize, i32)]);

const STOPS: [Stop; 11] = [
    ("counter", 12, 30, &[(0, 3), (1, 3)]),
    ("fibonacci", 97, 30, &[(1, 89), (2, 144)]),
    ("filter", 398, 30, &[]),
    ("sort", 585, 30, &[]),
    ("runlength", 143, 30, &[]),
    ("root", 118, 30, &[(0, 64), (1, 44)]),
    ("power", 113, 30, &[(0, 3), (1, 5), (4, 243)]),
    ("stop31", 3, 31, &[(0, 1)]),
    ("stop32", 17, 32, &[(2, 100), (3, 50), (4, 33)]),
    ("stop33", 41, 33, &[]),
    ("stop34", 128, 34, &[(0, 64)]),
];

fn named(name: &str) -> Example {
    let mut all = examples::all().into_iter();
    all.find(|example| example.name == name).expect("a name")
}

/// Where the run down from zeros stops.
fn stopped(name: &str) -> Bench {
    let mut bench = Bench::down(&named(name).tree);
    bench.run(1_000_000);
    bench
}

#[test]
fn each_runs_to_where_it_stops_and_back() {
    let names: Vec<&str> = examples::all().iter().map(|example| example.name).collect();
    assert_eq!(names, STOPS.map(|(name, ..)| name));
    for (name, steps, reason, cells) in STOPS {
        let mut bench = Bench::down(&named(name).tree);
        let (start, zeros) = (bench.place.clone(), bench.store.clone());
        assert_eq!(bench.run(1_000_000), (steps, reason), "{name}");
        if !cells.is_empty() {
            let found: BTreeMap<usize, i32> = bench.store.iter().copied().enumerate().collect();
            let nonzero = found.into_iter().filter(|(_, value)| *value != 0);
            assert_eq!(nonzero.collect::<Vec<_>>(), cells, "{name}");
        }
        assert_eq!(bench.step(), reason);
        assert_eq!(bench.run_back(steps), (steps, 0), "{name}");
        assert_eq!((&bench.place, &bench.store), (&start, &zeros), "{name}");
        assert_eq!(bench.back(), 30);
    }
}

#[test]
fn each_comes_back_on_other_stores_too() {
    let mut rng = Rng::new(5);
    for example in examples::all() {
        for _ in 0..40 {
            let mut bench = Bench::down(&example.tree);
            let start = bench.place.clone();
            bench.store = second::generator::store(&mut rng, bench.store.len());
            let before = bench.store.clone();
            let (steps, _) = bench.run(3_000);
            assert_eq!(bench.run_back(steps), (steps, 0), "{}", example.name);
            assert_eq!((&bench.place, &bench.store), (&start, &before));
        }
    }
}

/// Cells 2 to 18 are the samples, 19 to 35 the filtered ones.
#[test]
fn the_filter_gives_the_samples_back_and_makes_them_small() {
    let bench = stopped("filter");
    let (samples, filtered) = bench.store[2..].split_at(17);
    for (i, sample) in (0..17).zip(samples) {
        assert_eq!(*sample, 200 + 24 * i - i * i + 7 * i % 5);
    }
    let details = filtered.iter().skip(1).step_by(2);
    assert!(details.clone().count() == 8 && details.clone().all(|d| d.abs() <= 4));
    let rest = filtered.iter().zip(samples).step_by(2);
    assert!(rest.clone().all(|(f, s)| (f - s).abs() <= 2));
    assert_eq!(bench.store[..2], [0, 0]);
}

/// The filter alone is lossless on any samples: filtered and unfiltered, all 32 bits of them.
#[test]
fn the_filter_is_lossless_on_any_samples() {
    let mut rng = Rng::new(6);
    for _ in 0..50 {
        let mut bench = Bench::down(&named("filter").tree);
        let samples: Vec<i32> = (0..17).map(|_| rng.value()).collect();
        bench.store[2..19].copy_from_slice(&samples);
        // What `record` adds comes off again, so that the samples are the ones given.
        assert_eq!(bench.run(1_000_000).1, 30);
        for (i, sample) in (0..17).zip(samples) {
            let added = 200 + 24 * i - i * i + 7 * i % 5;
            let kept = bench.store[2 + i as usize];
            assert_eq!(kept.wrapping_sub(added), sample);
        }
    }
}

#[test]
fn the_sorted_values_ascend_and_the_garbage_is_bits() {
    let bench = stopped("sort");
    assert_eq!(bench.store[5..13], [4, 11, 14, 21, 31, 41, 48, 58]);
    assert!(bench.store[13..].iter().all(|bit| [0, 1].contains(bit)));
    // As many exchanges as there are pairs in the wrong order.
    let filled = [11, 48, 21, 58, 31, 4, 41, 14];
    let wrong = (0..8).flat_map(|i| (i..8).map(move |j| filled[i] > filled[j]));
    let exchanges: i32 = bench.store[13..].iter().sum();
    assert_eq!(exchanges, wrong.map(i32::from).sum());
}

#[test]
fn the_text_is_gone_into_its_runs() {
    let bench = stopped("runlength");
    assert_eq!(bench.store[..2], [12, 8]);
    assert!(bench.store[2..18].iter().all(|letter| *letter == 0));
    assert_eq!(bench.store[18..27], [3, 7, 4, 2, 5, 2, 6, 1, 0]);
}

#[test]
fn the_ninth_cell_is_not_there() {
    let bench = stopped("stop33");
    assert_eq!(bench.store, [8, 0, 1, 4, 9, 16, 25, 36, 49]);
}

fn folder() -> PathBuf {
    Path::new(env!("CARGO_MANIFEST_DIR")).join("../examples")
}

#[test]
fn the_files_in_the_repository_are_these() {
    let mut names: Vec<String> = fs::read_dir(folder())
        .expect("the examples")
        .map(|entry| entry.expect("a file").file_name().into_string())
        .map(|name| name.expect("a plain name"))
        .filter(|name| name.ends_with(".janus"))
        .collect();
    names.sort();
    let mut expected: Vec<String> = examples::all().iter().map(Example::file_name).collect();
    expected.sort();
    assert_eq!(names, expected);
    for example in examples::all() {
        let file = fs::read(folder().join(example.file_name())).expect("the file");
        assert_eq!(file, example.tree.encode(), "{}", example.name);
    }
}

#[test]
fn the_command_writes_them() {
    let made = Path::new(env!("CARGO_TARGET_TMPDIR")).join("examples");
    let _ = fs::remove_dir_all(&made);
    let write = || {
        let mut second = Command::new(env!("CARGO_BIN_EXE_second"));
        let output = second.arg("examples").arg(&made).output();
        output.expect("the program runs")
    };
    assert_eq!(write().status.code(), Some(1), "the folder is not there");
    fs::create_dir(&made).expect("a folder");
    let output = write();
    let said = String::from_utf8(output.stdout).expect("text");
    let names: String = STOPS.map(|(name, ..)| format!("{name}.janus\n")).concat();
    assert_eq!((said, output.status.code()), (names, Some(0)));
    for example in examples::all() {
        let file = fs::read(made.join(example.file_name())).expect("the file");
        assert_eq!(file, example.tree.encode());
    }
    fs::remove_dir_all(&made).expect("removed");
}

/// Each line of the notation after `mark`, as a comment or a page has it.
fn marked(notation: &str, mark: &str) -> String {
    let lines = notation.lines().map(|line| format!("{mark} {line}"));
    lines
        .map(|line| line.trim_end().to_string() + "\n")
        .collect()
}

#[test]
fn the_comments_show_the_notation() {
    let source = include_str!("../src/examples.rs");
    for example in examples::all() {
        let shown = marked(&example.notation(), "///");
        let block = format!("/// ```text\n{shown}/// ```\n");
        assert!(source.contains(&block), "{}\n{block}", example.name);
    }
}

/// What `run` prints.
fn run_text(example: &Example) -> String {
    let mut bench = Bench::down(&example.tree);
    let (steps, reason) = bench.run(1_000_000);
    let at = bench.at();
    let mut words = at.split(' ');
    let mut next = || words.next().expect("three words");
    let mut text = format!("steps {steps} stop {reason}\n");
    text += &format!("at {} {} {}\n", next(), next(), next());
    for (cell, value) in bench.store.iter().enumerate().filter(|(_, v)| **v != 0) {
        text += &format!("cell {cell} {value}\n");
    }
    text
}

#[test]
fn the_page_shows_the_notation_and_what_run_prints() {
    let page = fs::read_to_string(folder().join("README.md")).expect("the page");
    for example in examples::all() {
        let block = format!("```\n{}```\n", example.notation());
        assert!(page.contains(&block), "{}\n{block}", example.name);
        let printed = format!("```\n{}```\n", run_text(&example));
        assert!(page.contains(&printed), "{}\n{printed}", example.name);
        let size = format!(
            "`{}`, {} bytes",
            example.file_name(),
            example.tree.encode().len()
        );
        assert!(page.contains(&size), "{size}");
    }
}

#[test]
fn the_workloads_are_the_files_beside_the_rival_and_run_on() {
    let folder = Path::new(env!("CARGO_MANIFEST_DIR")).join("../speed/workloads");
    let mut records = vec![];
    for workload in second::workloads::all() {
        let file = fs::read(folder.join(workload.file_name())).expect("the file");
        assert_eq!(file, workload.tree.encode(), "{}", workload.name);
        records.push(workload.tree.records().len());
        let mut bench = Bench::down(&workload.tree);
        let start = bench.place.clone();
        assert_eq!(bench.run(50_000), (50_000, 0), "{}", workload.name);
        assert_eq!(bench.run_back(50_000), (50_000, 0), "{}", workload.name);
        assert_eq!(bench.place, start);
        assert!(bench.store.iter().all(|cell| *cell == 0));
    }
    assert_eq!((records[0], records[4]), (8, 1000));
}
