//! The second program of Ladrukhi: document 01 told once more, plainly.
//! Parse a file into trees, walk the trees, explicit edges. Clear before fast.
#![forbid(unsafe_code)]

pub mod builder;
pub mod bytes;
pub mod calls;
pub mod cases;
pub mod check;
pub mod command;
pub mod compare;
pub mod damage;
pub mod examples;
pub mod expression;
pub mod generator;
pub mod lent;
pub mod machine;
pub mod misses;
pub mod names;
pub mod notation;
pub mod number;
pub mod order;
pub mod place;
pub mod program;
pub mod raw_session;
pub mod recheck;
pub mod record;
pub mod rng;
pub mod session;
pub mod session_cases;
pub mod stream;
pub mod tally;
pub mod values;
pub mod vectors;
pub mod walk;
pub mod walk_cases;
pub mod workloads;
