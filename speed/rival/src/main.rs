//! `rival N [show]`: a program file on standard input, run on zeros from the start down for at most
//! N steps. Prints steps, reason and steps a second, the run alone timed; `show` prints in place of
//! the last the place, its frames innermost first and the nonzero cells, as the second program does.
#![deny(unsafe_code)]

use rival::machine::{run, Place};
use rival::map::{Program, MAX_CELLS};
use std::hint::black_box;
use std::io::Read;
use std::process::ExitCode;

fn main() -> ExitCode {
    let words: Vec<String> = std::env::args().skip(1).collect();
    let (n, show) = match &words[..] {
        [n] => (n.parse(), false),
        [n, word] if word == "show" => (n.parse(), true),
        _ => return usage(),
    };
    let Ok(n) = n else {
        return usage();
    };
    let mut file = vec![];
    if let Err(reason) = std::io::stdin().lock().read_to_end(&mut file) {
        eprintln!("rival: standard input: {reason}");
        return ExitCode::from(1);
    }
    match Program::new(&file) {
        Ok(mut program) => timed(&mut program, n, show),
        Err((number, record)) => println!("refused {number} record {record}"),
    }
    ExitCode::SUCCESS
}

/// Processor time in microseconds, by C's `clock`: the one that our program is timed by, too.
#[allow(unsafe_code)]
fn clock() -> i64 {
    extern "C" {
        fn clock() -> std::ffi::c_long;
    }
    unsafe { clock() }
}

fn usage() -> ExitCode {
    eprintln!("usage: rival N [show] < FILE");
    ExitCode::from(2)
}

fn timed(program: &mut Program, n: u32, show: bool) {
    let mut place = Place::start();
    let mut store = [0; MAX_CELLS];
    let before = clock();
    let (steps, reason) = run(black_box(program), &mut place, &mut store, n);
    let seconds = (clock() - before) as f64 / 1e6;
    println!("steps {steps} stop {reason}");
    if show {
        shown(&place, &store);
    } else {
        println!("{:.0} steps a second", f64::from(steps) / seconds);
    }
}

fn shown(place: &Place, store: &[i32]) {
    let way = ["down", "up"][place.direction];
    println!("at {} {} {way}", place.a, place.b);
    for slot in (0..place.count).rev() {
        println!("frame {} {}", place.kinds[slot], place.labels[slot]);
    }
    for (number, value) in store.iter().enumerate().filter(|(_, value)| **value != 0) {
        println!("cell {number} {value}");
    }
}
