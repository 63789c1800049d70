//! The table of a checked file: a row of u16 for each record, from which the map is made.

use crate::check::*;

/// Columns of the table, one row a label.
pub const KIND: usize = 0;
/// Where the body begins in the file.
pub const BODY: usize = 1;
/// The label that follows where a record is left downwards, and where it is left upwards; `DOWN`
/// and a direction of 1 make `UP`.
pub const DOWN: usize = 2;
pub const UP: usize = 3;
/// ELSE or LOOP of a construct; BEGIN of the procedure that a CALL or UNCALL names.
pub const MID: usize = 4;
/// FI of an IF, UNTIL of a FROM, and back; END of the procedure that a CALL or UNCALL names.
pub const MATE: usize = 5;

pub type Row = [u16; 8];

pub fn rows(file: &[u8], records: &[Record]) -> Box<[Row; MAX_RECORDS]> {
    let mut rows = Box::new([[0; 8]; MAX_RECORDS]);
    for (row, record) in rows.iter_mut().zip(records) {
        row[KIND] = record.kind;
        row[BODY] = record.body as u16;
    }
    tell_partners(&mut rows, records);
    tell_neighbours(&mut rows, records);
    tell_procedures(&mut rows, file, records);
    rows
}

/// MID and MATE of IF, ELSE, FI, FROM, LOOP and UNTIL.
fn tell_partners(rows: &mut [Row; MAX_RECORDS], records: &[Record]) {
    let mut open: Vec<[usize; 2]> = vec![];
    for (label, record) in records.iter().enumerate() {
        match record.kind {
            IF | FROM => open.push([label, 0]),
            ELSE | LOOP => open.last_mut().expect("one is open")[1] = label,
            FI | UNTIL => {
                let [opener, between] = open.pop().expect("one is open");
                for (at, mate) in [(opener, label), (between, opener), (label, opener)] {
                    rows[at][MID] = between as u16;
                    rows[at][MATE] = mate as u16;
                }
            }
            _ => {}
        }
    }
}

/// The label met after leaving a record downwards past the next one, or upwards past the former.
fn tell_neighbours(rows: &mut [Row; MAX_RECORDS], records: &[Record]) {
    for label in 1..records.len() {
        let after = label + 1;
        rows[label][DOWN] = match records.get(after).map(|record| record.kind) {
            // The end of s1 leads to FI or UNTIL.
            Some(ELSE | LOOP) => closer(rows, after),
            // The end of s2 leads to FI, or back to FROM.
            Some(UNTIL) => rows[after][MATE],
            _ => after as u16,
        };
        let before = label - 1;
        rows[label][UP] = match records[before].kind {
            ELSE => rows[before][MATE],
            LOOP => closer(rows, before),
            _ => before as u16,
        };
    }
}

/// FI or UNTIL of an ELSE or LOOP, by way of its IF or FROM.
fn closer(rows: &[Row; MAX_RECORDS], between: usize) -> u16 {
    let opener = usize::from(rows[between][MATE]);
    rows[opener][MATE]
}

fn tell_procedures(rows: &mut [Row; MAX_RECORDS], file: &[u8], records: &[Record]) {
    let labels = |kind: u16| -> Vec<u16> {
        let found = (0..records.len()).filter(|label| records[*label].kind == kind);
        found.map(|label| label as u16).collect()
    };
    let (begins, ends) = (labels(BEGIN), labels(END));
    for (label, record) in records.iter().enumerate() {
        if matches!(record.kind, CALL | UNCALL) {
            let procedure = usize::from(u16_at(file, record.body));
            rows[label][MID] = begins[procedure];
            rows[label][MATE] = ends[procedure];
        }
    }
}
