//! A hand-tuned interpreter of document 01's programs, of the same design as Ladrukhi's machine: its map, its arrays, its tests.
//! The file checked and the map made once, then one place moved in place, expressions evaluated on the file's own bytes, the common
//! ones without a call, nothing allocated.
#![forbid(unsafe_code)]

pub mod check;
pub mod machine;
pub mod map;
pub mod operator;
pub mod table;
pub mod told;
pub mod value;
