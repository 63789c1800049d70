//! An interpreter of document 01's programs as one writes it by hand: records decoded into a Vec, expressions as trees, a `match`
//! a step. It takes accepted files only and does not check them: on others it may panic or answer anything.
#![forbid(unsafe_code)]

pub mod expression;
pub mod machine;
pub mod program;
