//! What a run asks of a checked file, made once: the file with zeros behind, the map by way, the arrays.

use crate::check::*;
use crate::table::{rows, Row, BODY, DOWN, KIND, MATE, MID};

/// Room for the file, and for what is read behind a position that was tested.
pub const FILE_ROOM: usize = 32_784;

/// A store has room for this many cells.
pub const MAX_CELLS: usize = 2048;

pub type Store = [i32; MAX_CELLS];

pub const MAX_FRAMES: usize = 1104;

/// A way is a label, and `MAX_RECORDS` more upwards.
pub const WAYS: usize = 2 * MAX_RECORDS;

/// Sections of the map. What the record does.
pub const ACT: usize = 0;
/// The way on from it, where its test holds or there is none; and where it does not hold.
pub const YES: usize = 1;
pub const NO: usize = 2;
/// A call's record by which the procedure is entered, or a SET's operator; the way from there, or a SET's cell or array.
pub const FIRST: usize = 3;
pub const SECOND: usize = 4;
/// Where its expression stands; the head of its construct.
pub const EXPR: usize = 5;
pub const HEAD: usize = 6;

/// What `ACT` says; all else is skipped.
pub const CELL_ADD: u16 = 4;
pub const CELL_SUB: u16 = 12;
pub const CELL_XOR: u16 = 14;
pub const ENTRY: u16 = 6;
pub const GO_IN: u16 = 11;
pub const OUT_DOWN: u16 = 3;
pub const OUT_UP: u16 = 9;
pub const ON_IF: u16 = 5;
pub const ON_FI: u16 = 7;
pub const ON_FROM: u16 = 8;
pub const ON_UNTIL: u16 = 10;
pub const GO_ON: u16 = 13;

pub type Map = [[u16; WAYS]; 7];

/// All that a run reads and writes behind one address; the file comes first, since it is asked most.
#[repr(C)]
pub struct Run {
    pub file: [u8; FILE_ROOM],
    pub map: Map,
    /// 16 starts, then 16 lengths.
    pub arrays: [u16; 32],
    pub cells: Store,
    pub kinds: [u16; MAX_FRAMES],
    pub labels: [u16; MAX_FRAMES],
}

pub struct Program {
    pub run: Box<Run>,
    pub cells: usize,
}

impl Program {
    pub fn new(bytes: &[u8]) -> Result<Program, Fault> {
        let records = check(bytes)?;
        let (scalars, lengths) = declared(bytes, &records[0]);
        let mut run = Box::new(Run {
            file: [0; FILE_ROOM],
            map: [[0; WAYS]; 7],
            arrays: [0; 32],
            cells: [0; MAX_CELLS],
            kinds: [0; MAX_FRAMES],
            labels: [0; MAX_FRAMES],
        });
        let mut cells = scalars;
        for (array, length) in lengths.into_iter().enumerate() {
            (run.arrays[array], run.arrays[array + 16]) = (cells, length);
            cells += length;
        }
        run.file[..bytes.len()].copy_from_slice(bytes);
        tell_map(&mut run.map, bytes, &rows(bytes, &records));
        Ok(Program {
            run,
            cells: usize::from(cells),
        })
    }
}

fn tell_map(map: &mut Map, file: &[u8], rows: &[Row; MAX_RECORDS]) {
    let met = |(_, row): &(usize, &Row)| row[KIND] != 0;
    for (label, row) in rows.iter().enumerate().skip(1).filter(met) {
        for up in [0, 1] {
            let told = entries(file, label as u16, row, up);
            for (section, entry) in map.iter_mut().zip(told) {
                section[label + MAX_RECORDS * up] = entry;
            }
        }
    }
}

fn way_to(label: u16, up: usize) -> u16 {
    label + (MAX_RECORDS * up) as u16
}

/// A record's entry in each section.
fn entries(file: &[u8], label: u16, row: &Row, up: usize) -> [u16; 7] {
    let [kind, mid, mate] = [row[KIND], row[MID], row[MATE]];
    let on = way_to(row[DOWN + up], up);
    let body = row[BODY];
    match (kind, up) {
        (SET, _) => set(file, usize::from(body), up, on),
        (CALL | UNCALL, _) => call(row, up ^ usize::from(kind == UNCALL)),
        (BEGIN | END, _) => [[OUT_DOWN, OUT_UP][up], on, 0, 0, 0, 0, 0],
        (IF, 0) => [ON_IF, label + 1, mid + 1, 0, 0, body, label],
        (FI, 1) => {
            let (yes, no) = (way_to(mid - 1, 1), way_to(label - 1, 1));
            [ON_IF, yes, no, 0, 0, body, mate]
        }
        (IF | FI, _) => [ON_FI, on, 0, 0, 0, body, 0],
        (FROM, 0) => [ON_FROM, label + 1, 0, 0, 0, body, label],
        (UNTIL, 1) => [ON_FROM, way_to(mid - 1, 1), 0, 0, 0, body, mate],
        (FROM, _) => [ON_UNTIL, on, way_to(mate - 1, 1), 0, 0, body, 0],
        (UNTIL, _) => [ON_UNTIL, on, mid + 1, 0, 0, body, 0],
        _ => [GO_ON, on, 0, 0, 0, 0, 0],
    }
}

/// Upwards the opposite operator; `^` is its own.
fn set(file: &[u8], at: usize, up: usize, on: u16) -> [u16; 7] {
    let operator = match file[at] {
        2 => 2,
        operator => u16::from(operator) ^ up as u16,
    };
    let act = match file[at + 1] {
        0 => [CELL_ADD, CELL_SUB, CELL_XOR][usize::from(operator)],
        _ => ENTRY,
    };
    let target = u16_at(file, at + 2);
    [act, on, 0, operator, target, at as u16 + 4, 0]
}

/// In the direction in which the procedure is run, and the next record met.
fn call(row: &Row, up: usize) -> [u16; 7] {
    let [begin, end] = [row[MID], row[MATE]];
    let gate = [begin, end][up];
    let into = [begin + 1, end.wrapping_sub(1)][up];
    let on = way_to(row[DOWN + up], up);
    [GO_IN, on, 0, gate, way_to(into, up), 0, 0]
}
