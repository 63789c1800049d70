//! Number 6 by its definition: every valid order of few records, and all their beginnings.
#![forbid(unsafe_code)]

use second::builder::{constant, encode, names};
use second::check::check;
use second::record::Record;
use std::collections::HashSet;

/// Beginnings of this length can all be completed within LONGEST records.
const BEGINNING: usize = 5;
const LONGEST: usize = 16;

type Kinds = Vec<u8>;

/// All rows of statements, by their length up to the most given; index 0 holds none.
fn rows(most: usize) -> Vec<Vec<Kinds>> {
    let mut found: Vec<Vec<Kinds>> = vec![vec![]];
    for length in 1..=most {
        let mut of_length = vec![];
        for first in 1..=length {
            for statement in statements(first, &found) {
                if first == length {
                    of_length.push(statement.clone());
                }
                for rest in &found[length - first] {
                    of_length.push([&statement[..], rest].concat());
                }
            }
        }
        found.push(of_length);
    }
    found
}

/// SKIP, IF s ELSE s FI and FROM s LOOP s UNTIL of one length, from shorter rows.
fn statements(length: usize, rows: &[Vec<Kinds>]) -> Vec<Kinds> {
    if length == 1 {
        return vec![vec![13]];
    }
    let mut found = vec![];
    for first in 1..length.saturating_sub(3) {
        for one in &rows[first] {
            for two in &rows[length - 3 - first] {
                for [opener, turn, closer] in [[5, 6, 7], [8, 9, 10]] {
                    found.push([&[opener], &one[..], &[turn], two, &[closer]].concat());
                }
            }
        }
    }
    found
}

/// NAMES and then one or more BEGIN s END, by a row for each procedure.
fn files() -> Vec<Kinds> {
    let rows = rows(LONGEST - 3);
    let mut found = vec![];
    let mut unfinished: Vec<Kinds> = vec![vec![1]];
    while let Some(start) = unfinished.pop() {
        let room = LONGEST - start.len();
        for row in rows.iter().take(room.saturating_sub(1)).flatten() {
            let file = [&start[..], &[2], row, &[3]].concat();
            // Further procedures matter to beginnings only while those are short.
            if file.len() < BEGINNING {
                unfinished.push(file.clone());
            }
            found.push(file);
        }
    }
    found
}

fn record(kind: u8) -> Record {
    match kind {
        1 => names(0, &[]),
        2 => Record::Begin,
        3 => Record::End,
        5 => Record::If(constant(1)),
        6 => Record::Else,
        7 => Record::Fi(constant(1)),
        8 => Record::From(constant(1)),
        9 => Record::Loop,
        10 => Record::Until(constant(1)),
        _ => Record::Skip,
    }
}

fn answered(kinds: &[u8]) -> Option<usize> {
    let records: Vec<Record> = kinds.iter().map(|&kind| record(kind)).collect();
    match check(&encode(&records)) {
        Ok(_) => None,
        Err(refusal) => {
            assert_eq!(refusal.number.value(), 6);
            refusal.record
        }
    }
}

/// The first record after which nothing valid follows, or the count where the file stops too soon.
fn defined(kinds: &[u8], valid: &HashSet<Kinds>, beginnings: &HashSet<Kinds>) -> Option<usize> {
    let fault = (0..kinds.len()).find(|&at| !beginnings.contains(&kinds[..=at]));
    match fault {
        Some(at) => Some(at),
        None if valid.contains(kinds) => None,
        None => Some(kinds.len()),
    }
}

#[test]
fn number_6_is_what_its_definition_says() {
    let valid: HashSet<Kinds> = files().into_iter().collect();
    let beginnings: HashSet<Kinds> = valid
        .iter()
        .flat_map(|file| (0..=BEGINNING.min(file.len())).map(|n| file[..n].to_vec()))
        .collect();
    let kinds = [1, 2, 3, 13, 5, 6, 7, 8, 9, 10];
    let mut tried: Vec<Kinds> = vec![vec![]];
    let mut from = 0;
    for _ in 0..BEGINNING {
        let to = tried.len();
        for at in from..to {
            for kind in kinds {
                tried.push([&tried[at][..], &[kind]].concat());
            }
        }
        from = to;
    }
    assert_eq!(tried.len(), 111_111);
    for sequence in tried {
        let expected = defined(&sequence, &valid, &beginnings);
        assert_eq!(answered(&sequence), expected, "{sequence:?}");
    }
}

#[test]
fn every_valid_order_is_accepted() {
    let all = files();
    assert!(all.len() > 1000);
    for file in all {
        assert_eq!(answered(&file), None, "{file:?}");
    }
}
