//! `plain N`: an accepted program file on standard input, run on zeros from the start down for at most N steps.
//! Prints steps, reason and steps a second, the run alone timed.
#![deny(unsafe_code)]

use plain::machine::Machine;
use plain::program::Program;
use std::io::Read;

/// Processor time in microseconds, by C's `clock`: the one that our program is timed by, too.
#[allow(unsafe_code)]
fn clock() -> i64 {
    extern "C" {
        fn clock() -> std::ffi::c_long;
    }
    unsafe { clock() }
}

fn main() {
    let word = std::env::args().nth(1);
    let n = word.and_then(|word| word.parse().ok());
    let n = n.expect("usage: plain N < FILE");
    let mut file = vec![];
    std::io::stdin().read_to_end(&mut file).expect("the file");
    let program = Program::decode(&file);
    let mut machine = Machine::start(&program);
    let before = clock();
    let (steps, stop) = machine.run(n);
    let seconds = (clock() - before) as f64 / 1e6;
    println!("steps {steps} stop {}", stop.map_or(0, |stop| stop as u8));
    println!("{:.0} steps a second", f64::from(steps) / seconds);
}
