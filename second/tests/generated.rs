//! Seeded programs and damaged files: the properties hold, and everything was met.
#![forbid(unsafe_code)]

use second::walk::walks;
use std::io::Write;

fn try_seed(seed: u64, count: usize) {
    let tally = walks(seed, count);
    // Straight to standard error, so that the counts are seen on success too.
    let text = format!("seed {seed}, {count} programs\n{tally}");
    std::io::stderr()
        .write_all(text.as_bytes())
        .expect("standard error");
    assert_eq!(tally.missing(), Vec::<String>::new());
}

#[test]
fn generated_programs_keep_the_properties_and_meet_everything() {
    try_seed(1, 1500);
}

#[test]
fn another_seed_does_too() {
    try_seed(20_240_601, 800);
}

#[test]
fn what_was_never_met_is_missing() {
    let few = walks(1, 1);
    assert!(few.missing().contains(&"number 1".to_string()));
    assert!(!few.missing().contains(&"number 0".to_string()));
}
