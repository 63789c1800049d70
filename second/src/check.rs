//! The check of a program file: 1; then each record 2, 3, 4, 5; then over all records 6, 7, 8.

use crate::bytes::Reader;
use crate::names::Names;
use crate::number::{Number, Refusal};
use crate::order::check_order;
use crate::program::Program;
use crate::record::{is_known, Record};

pub const MAX_FILE: usize = 32_768;
pub const MAX_RECORDS: usize = 1024;
pub const MAX_PROCEDURES: usize = 64;

/// The program, or the number and the first record at fault.
pub fn check(file: &[u8]) -> Result<Program, Refusal> {
    if file.len() > MAX_FILE {
        return Err(Refusal::at(Number::FileTooLong, 0));
    }
    let records = read_records(file)?;
    check_order(&records)?;
    let names = declared(&records);
    first_fault(&records, Number::NumberNotThere, |record| {
        !numbers_are_there(record, names, count_procedures(&records))
    })?;
    first_fault(&records, Number::OwnName, assigns_its_own_name)?;
    Ok(Program::new(records))
}

fn read_records(file: &[u8]) -> Result<Vec<Record>, Refusal> {
    let mut reader = Reader::new(file);
    let mut records = vec![];
    while !reader.is_empty() {
        let label = records.len();
        let record = read_record(&mut reader).map_err(|number| Refusal::at(number, label))?;
        records.push(record);
        if exceeds_a_size(&records) {
            return Err(Refusal::at(Number::SizeExceeded, label));
        }
    }
    Ok(records)
}

/// Asks 2, 3 and 4 of the next record.
fn read_record(reader: &mut Reader) -> Result<Record, Number> {
    let (kind, body) = reader.framed().ok_or(Number::RecordCut)?;
    if !is_known(kind) {
        return Err(Number::UnknownKind);
    }
    Record::parse(kind, body).ok_or(Number::BodyMalformed)
}

/// Asks 5 of the last record; BEGINs are counted where they stand, in whatever order.
fn exceeds_a_size(records: &[Record]) -> bool {
    let own = match records.last() {
        Some(Record::Names(names)) => !names.within_sizes(),
        Some(Record::Begin) => count_procedures(records) > MAX_PROCEDURES,
        _ => false,
    };
    own || records.len() > MAX_RECORDS
}

fn count_procedures(records: &[Record]) -> usize {
    records.iter().filter(|r| **r == Record::Begin).count()
}

/// The order has been checked, so the first record is NAMES.
fn declared(records: &[Record]) -> &Names {
    match records.first() {
        Some(Record::Names(names)) => names,
        _ => unreachable!("6 is asked before 7"),
    }
}

fn first_fault(
    records: &[Record],
    number: Number,
    at_fault: impl Fn(&Record) -> bool,
) -> Result<(), Refusal> {
    match records.iter().position(at_fault) {
        Some(label) => Err(Refusal::at(number, label)),
        None => Ok(()),
    }
}

fn numbers_are_there(record: &Record, names: &Names, procedures: usize) -> bool {
    let target_is_there = match record {
        Record::Set(assignment) => assignment.target.name().is_in(names),
        Record::Call(callee) | Record::Uncall(callee) => {
            *callee != 0 && usize::from(*callee) < procedures
        }
        _ => true,
    };
    let expressions = record.expressions();
    let mut occurring = expressions.iter().flat_map(|e| e.names());
    target_is_there && occurring.all(|name| name.is_in(names))
}

fn assigns_its_own_name(record: &Record) -> bool {
    match record {
        Record::Set(assignment) => assignment.mentions_its_target(),
        _ => false,
    }
}
