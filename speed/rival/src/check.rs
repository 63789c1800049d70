//! The check of a program file, done once before a run: 1, then 2 to 5 record by record, then 6, 7, 8.

/// The number and the first record at fault.
pub type Fault = (u8, usize);

pub const MAX_FILE: usize = 32_768;
pub const MAX_RECORDS: usize = 1024;

pub const NAMES: u16 = 1;
pub const BEGIN: u16 = 2;
pub const END: u16 = 3;
pub const SET: u16 = 4;
pub const IF: u16 = 5;
pub const ELSE: u16 = 6;
pub const FI: u16 = 7;
pub const FROM: u16 = 8;
pub const LOOP: u16 = 9;
pub const UNTIL: u16 = 10;
pub const CALL: u16 = 11;
pub const UNCALL: u16 = 12;
pub const SKIP: u16 = 13;

/// A record's kind and where its body lies.
#[derive(Clone, Copy)]
pub struct Record {
    pub kind: u16,
    pub body: usize,
    pub end: usize,
}

/// A name that an expression mentions.
#[derive(Clone, Copy, PartialEq)]
enum Name {
    Scalar(u16),
    Array(u16),
}

/// The records of a file that is sound.
pub fn check(file: &[u8]) -> Result<Vec<Record>, Fault> {
    if file.len() > MAX_FILE {
        return Err((1, 0));
    }
    let records = framed(file)?;
    check_order(&records)?;
    let procedures = records.iter().filter(|record| record.kind == BEGIN).count();
    let (scalars, arrays) = declared(file, &records[0]);
    let is_there = |name: &Name| match name {
        Name::Scalar(number) => *number < scalars,
        Name::Array(number) => usize::from(*number) < arrays.len(),
    };
    for (label, record) in records.iter().enumerate() {
        let called = matches!(record.kind, CALL | UNCALL).then(|| u16_at(file, record.body));
        let missing = called.is_some_and(|n| n == 0 || usize::from(n) >= procedures);
        if missing || !names(file, record).iter().all(is_there) {
            return Err((7, label));
        }
    }
    for (label, record) in records.iter().enumerate() {
        if record.kind == SET {
            let (target, mentioned) = target_and_rest(file, record);
            if mentioned.contains(&target) {
                return Err((8, label));
            }
        }
    }
    Ok(records)
}

pub fn u16_at(file: &[u8], at: usize) -> u16 {
    u16::from_le_bytes([file[at], file[at + 1]])
}

/// The number of scalars and the arrays' lengths that a NAMES record tells.
pub fn declared(file: &[u8], names: &Record) -> (u16, Vec<u16>) {
    let arrays = usize::from(u16_at(file, names.body + 2));
    let length = |array| u16_at(file, names.body + 4 + 2 * array);
    (u16_at(file, names.body), (0..arrays).map(length).collect())
}

fn framed(file: &[u8]) -> Result<Vec<Record>, Fault> {
    let mut records: Vec<Record> = vec![];
    let mut begins = 0;
    let mut at = 0;
    while at < file.len() {
        let label = records.len();
        if file.len() - at < 4 {
            return Err((2, label));
        }
        let length = usize::from(u16_at(file, at));
        if length < 4 || length > file.len() - at {
            return Err((2, label));
        }
        let record = Record {
            kind: u16_at(file, at + 2),
            body: at + 4,
            end: at + length,
        };
        if !(NAMES..=SKIP).contains(&record.kind) {
            return Err((3, label));
        }
        if !is_well_formed(&file[record.body..record.end], record.kind) {
            return Err((4, label));
        }
        begins += usize::from(record.kind == BEGIN);
        let large = record.kind == NAMES && exceeds_sizes(file, &record);
        if large || begins > 64 || label == MAX_RECORDS {
            return Err((5, label));
        }
        records.push(record);
        at = record.end;
    }
    Ok(records)
}

fn is_well_formed(body: &[u8], kind: u16) -> bool {
    let whole = |end: Option<usize>| end == Some(body.len());
    match kind {
        NAMES => body.len() >= 4 && body.len() == 4 + 2 * usize::from(u16_at(body, 2)),
        SET => match body {
            [0..=2, 0, _, _, ..] => whole(expression_end(body, 4, 16)),
            [0..=2, 1, _, _, ..] => {
                let index = expression_end(body, 4, 16);
                whole(index.and_then(|end| expression_end(body, end, 16)))
            }
            _ => false,
        },
        IF | FI | FROM | UNTIL => whole(expression_end(body, 0, 16)),
        CALL | UNCALL => body.len() == 2,
        _ => body.is_empty(),
    }
}

/// Where an expression of at most that depth ends.
fn expression_end(body: &[u8], at: usize, depth: usize) -> Option<usize> {
    if depth == 0 {
        return None;
    }
    let end = match *body.get(at)? {
        0 => at + 5,
        1 => at + 3,
        2 => expression_end(body, at + 3, depth - 1)?,
        3 if *body.get(at + 1)? < 16 => {
            let left = expression_end(body, at + 2, depth - 1)?;
            expression_end(body, left, depth - 1)?
        }
        _ => return None,
    };
    (end <= body.len()).then_some(end)
}

fn exceeds_sizes(file: &[u8], record: &Record) -> bool {
    let (scalars, lengths) = declared(file, record);
    let cells = usize::from(scalars) + lengths.iter().map(|&n| usize::from(n)).sum::<usize>();
    let wrong = lengths.iter().any(|length| !(1..=1024).contains(length));
    scalars > 64 || lengths.len() > 16 || wrong || cells > 2048
}

/// NAMES, then BEGIN s END once or more; the open constructs are kept by the kind last met.
fn check_order(records: &[Record]) -> Result<(), Fault> {
    let mut open: Vec<u16> = vec![];
    let mut inside = false;
    let mut row_is_empty = true;
    for (label, record) in records.iter().enumerate() {
        let innermost = open.last().copied();
        let allowed = match record.kind {
            NAMES => label == 0,
            BEGIN => label > 0 && !inside,
            END => inside && open.is_empty() && !row_is_empty,
            IF | FROM => inside && open.len() < 16,
            ELSE => innermost == Some(IF) && !row_is_empty,
            FI => innermost == Some(ELSE) && !row_is_empty,
            LOOP => innermost == Some(FROM) && !row_is_empty,
            UNTIL => innermost == Some(LOOP) && !row_is_empty,
            _ => inside,
        };
        if !allowed {
            return Err((6, label));
        }
        match record.kind {
            IF | FROM => open.push(record.kind),
            ELSE | LOOP => *open.last_mut().expect("one is open") = record.kind,
            FI | UNTIL => drop(open.pop()),
            _ => {}
        }
        inside = record.kind != END && (inside || record.kind == BEGIN);
        row_is_empty = matches!(record.kind, BEGIN | IF | ELSE | FROM | LOOP);
    }
    match records.len() > 1 && !inside {
        true => Ok(()),
        false => Err((6, records.len())),
    }
}

/// Every name that a record mentions, a SET's target first.
fn names(file: &[u8], record: &Record) -> Vec<Name> {
    let mut found = vec![];
    match record.kind {
        SET => {
            let (target, mentioned) = target_and_rest(file, record);
            found.push(target);
            found.extend(mentioned);
        }
        IF | FI | FROM | UNTIL => drop(mentioned(file, record.body, &mut found)),
        _ => {}
    }
    found
}

fn target_and_rest(file: &[u8], record: &Record) -> (Name, Vec<Name>) {
    let number = u16_at(file, record.body + 2);
    let mut found = vec![];
    let mut at = record.body + 4;
    let target = match file[record.body + 1] {
        0 => Name::Scalar(number),
        _ => {
            at = mentioned(file, at, &mut found);
            Name::Array(number)
        }
    };
    mentioned(file, at, &mut found);
    (target, found)
}

/// Where the expression ends.
fn mentioned(file: &[u8], at: usize, found: &mut Vec<Name>) -> usize {
    match file[at] {
        0 => at + 5,
        1 => {
            found.push(Name::Scalar(u16_at(file, at + 1)));
            at + 3
        }
        2 => {
            found.push(Name::Array(u16_at(file, at + 1)));
            mentioned(file, at + 3, found)
        }
        _ => {
            let left = mentioned(file, at + 2, found);
            mentioned(file, left, found)
        }
    }
}
