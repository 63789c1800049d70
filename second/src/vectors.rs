//! Test vectors: case lines made from fixed seeds, and the answer line of any case line.

use crate::builder::*;
use crate::cases;
use crate::check::check;
use crate::damage;
use crate::expression::Expression;
use crate::generator::{self, EDGES};
use crate::record::{Record, SetOperator};
use crate::rng::Rng;
use crate::session_cases;
use crate::stream::{self, Line};
use crate::values::{apply, Operator};
use crate::walk_cases;

#[derive(Clone, Copy, Debug, PartialEq, Eq)]
pub enum Family {
    Values,
    Check,
    Walk,
    Session,
}

impl Family {
    pub fn named(name: &str) -> Option<Family> {
        match name {
            "values" => Some(Family::Values),
            "check" => Some(Family::Check),
            "walk" => Some(Family::Walk),
            "session" => Some(Family::Session),
            _ => None,
        }
    }

    /// All case lines of the family, always the same.
    pub fn cases(self) -> String {
        match self {
            Family::Values => joined(value_cases()),
            Family::Check => joined(check_cases().iter().map(|file| to_hex(file)).collect()),
            Family::Walk => walk_cases::all(),
            Family::Session => session_cases::all(),
        }
    }

    /// The answer lines, or the number (from 1) of the first case line that is none.
    pub fn answers(self, cases: &str) -> Result<String, usize> {
        match self {
            Family::Values => line_by_line(cases, value_answer),
            Family::Check => line_by_line(cases, |line| Some(check_answer(&from_hex(line)?))),
            Family::Walk => stream::answers(cases, Line::is_of_walks),
            Family::Session => stream::answers(cases, |_| true),
        }
    }
}

fn joined(lines: Vec<String>) -> String {
    lines.into_iter().map(|line| line + "\n").collect()
}

/// An answer line for each case line.
fn line_by_line(cases: &str, answer: fn(&str) -> Option<String>) -> Result<String, usize> {
    let mut text = String::new();
    for (at, line) in cases.lines().enumerate() {
        text += &answer(line).ok_or(at + 1)?;
        text.push('\n');
    }
    Ok(text)
}

fn value_cases() -> Vec<String> {
    let core = [
        0,
        1,
        -1,
        2,
        -2,
        7,
        -7,
        65_536,
        -65_536,
        1 << 30,
        i32::MAX,
        i32::MIN,
    ];
    let mut rng = Rng::new(1);
    let mut lines = vec![];
    for operator in Operator::ALL {
        let mut add = |left: i32, right: i32| {
            lines.push(format!("{} {left} {right}", operator.code()));
        };
        for left in core {
            core.iter().for_each(|&right| add(left, right));
        }
        for _ in 0..48 {
            let (left, right) = (operand(&mut rng), operand(&mut rng));
            add(left, right);
        }
    }
    lines
}

/// Any value, a small one, or one beside a power of two, of either sign.
fn operand(rng: &mut Rng) -> i32 {
    match rng.below(4) {
        0 => rng.value(),
        1 => rng.below(41) as i32 - 20,
        2 => *rng.pick(&EDGES),
        _ => {
            let power = 1_i32 << rng.below(31);
            let beside = power - 1 + rng.below(2) as i32;
            beside * *rng.pick(&[1, -1])
        }
    }
}

/// `value V` or `zero`; None where the line is no case.
fn value_answer(line: &str) -> Option<String> {
    let words: Vec<&str> = line.split(' ').collect();
    let [code, left, right] = words[..] else {
        return None;
    };
    let operator = Operator::from_code(code.parse().ok()?)?;
    match apply(operator, left.parse().ok()?, right.parse().ok()?) {
        Ok(value) => Some(format!("value {value}")),
        Err(_) => Some("zero".to_string()),
    }
}

/// `accepted RECORDS PROCEDURES CELLS` or `refused NUMBER RECORD`.
pub fn check_answer(file: &[u8]) -> String {
    match check(file) {
        Ok(program) => format!(
            "accepted {} {} {}",
            program.records.len(),
            program.procedures.len(),
            program.cells()
        ),
        Err(refusal) => format!(
            "refused {} {}",
            refusal.number.value(),
            refusal.record.expect("1 to 8 carry their record")
        ),
    }
}

/// The stated cases have the few long files that matter; more would only fill space.
const MAX_MADE: usize = 2_500;

fn check_cases() -> Vec<Vec<u8>> {
    let mut rng = Rng::new(2);
    let mut files: Vec<Vec<u8>> = cases::all().into_iter().map(|case| case.file).collect();
    let stated = files.len();
    files.extend(example_damaged());
    for _ in 0..400 {
        files.push(some_order(&mut rng));
        files.push(some_names(&mut rng));
        files.push(some_numbers(&mut rng));
        files.push(some_depth(&mut rng));
    }
    for _ in 0..250 {
        let sound = generator::program(&mut rng).encode();
        for _ in 0..7 {
            files.push(damage::program_file(&mut rng, &sound));
        }
        files.push(sound);
    }
    let (stated, made) = files.split_at(stated);
    let short = made.iter().filter(|file| file.len() <= MAX_MADE);
    stated.iter().chain(short).cloned().collect()
}

/// Every beginning of the example, and every byte of it changed in six ways.
fn example_damaged() -> Vec<Vec<u8>> {
    let sound = example().encode();
    let mut files: Vec<Vec<u8>> = (0..sound.len()).map(|n| sound[..n].to_vec()).collect();
    for (at, &byte) in sound.iter().enumerate() {
        let others = [
            0,
            255,
            byte ^ 1,
            byte ^ 128,
            byte.wrapping_add(1),
            byte.wrapping_sub(1),
        ];
        for other in others.into_iter().filter(|&other| other != byte) {
            let mut changed = sound.clone();
            changed[at] = other;
            files.push(changed);
        }
    }
    files
}

/// A row of records that follows the order for a while, by chance.
fn some_order(rng: &mut Rng) -> Vec<u8> {
    let body = (0..1 + rng.below(4)).map(|_| some_node(rng, 0)).collect();
    let mut records = tree(0, &[], vec![body, vec![Node::Skip]]).records();
    let (at, other) = (rng.below(records.len()), rng.below(records.len()));
    match rng.below(5) {
        0 => drop(records.remove(at)),
        1 => records.insert(at, records[other].clone()),
        2 => records.swap(at, other),
        3 => records.truncate(at),
        _ => {
            records[at] = rng
                .pick(&[Record::Skip, Record::Begin, Record::End])
                .clone()
        }
    }
    encode(&records)
}

fn some_node(rng: &mut Rng, open: usize) -> Node {
    if open > 18 || rng.percent(20) {
        return Node::Skip;
    }
    // Mostly one branch goes deeper, so that the 17th open construct is met.
    let (test, other) = (constant(1), vec![Node::Skip]);
    let inner = vec![some_node(rng, open + 1)];
    let (first, second) = match rng.percent(50) {
        true => (inner, other),
        false => (other, inner),
    };
    match rng.percent(50) {
        true => Node::If(test.clone(), first, second, test),
        false => Node::From(test.clone(), first, second, test),
    }
}

/// NAMES near its sizes, before a smallest program.
fn some_names(rng: &mut Rng) -> Vec<u8> {
    let scalars = *rng.pick(&[0, 1, 63, 64, 65, 256]);
    let arrays = *rng.pick(&[0, 1, 2, 3, 15, 16, 17]);
    let lengths: Vec<u16> = match rng.below(4) {
        0 => (0..arrays).map(|_| rng.small(1030)).collect(),
        1 => (0..arrays).map(|_| 1 + rng.small(160)).collect(),
        2 => {
            let cells = 2046 + rng.below(5);
            reaching(rng, cells, usize::from(scalars))
        }
        _ => (0..arrays)
            .map(|_| *rng.pick(&[1, 2, 1023, 1024]))
            .collect(),
    };
    encode(&[
        names(scalars, &lengths),
        Record::Begin,
        Record::Skip,
        Record::End,
    ])
}

/// Lengths that make up so many cells with the scalars.
fn reaching(rng: &mut Rng, cells: usize, scalars: usize) -> Vec<u16> {
    let mut left = cells - scalars;
    let mut lengths = vec![];
    while left > 0 {
        let length = left.min(200 + rng.below(825));
        lengths.push(length as u16);
        left -= length;
    }
    lengths
}

/// Three statements whose numbers may not be there and whose targets may be their own.
fn some_numbers(rng: &mut Rng) -> Vec<u8> {
    let mut records = vec![names(2, &[3, 1]), Record::Begin];
    for _ in 0..3 {
        records.push(some_record(rng));
    }
    records.extend([Record::End, Record::Begin, Record::Skip, Record::End]);
    encode(&records)
}

fn some_record(rng: &mut Rng) -> Record {
    let operator = *rng.pick(&SetOperator::ALL);
    match rng.below(8) {
        0 => Record::Call(rng.small(3)),
        1 => Record::Uncall(rng.small(3)),
        2 | 3 => {
            let (target, index) = (some_number(rng), some_expression(rng, 2));
            Record::Set(to_array(operator, target, index, some_expression(rng, 3)))
        }
        _ => Record::Set(to_scalar(
            operator,
            some_number(rng),
            some_expression(rng, 3),
        )),
    }
}

/// 0 or 1, and now and then 2 or more.
fn some_number(rng: &mut Rng) -> u16 {
    match rng.below(20) {
        0 => *rng.pick(&[2, 3, 255, 256, 65_535]),
        _ => rng.small(2),
    }
}

fn some_expression(rng: &mut Rng, depth: usize) -> Expression {
    match rng.below(if depth == 1 { 5 } else { 9 }) {
        0..=3 => constant(rng.value()),
        4 => scalar(some_number(rng)),
        5 => array(some_number(rng), some_expression(rng, depth - 1)),
        _ => {
            let operator = *rng.pick(&Operator::ALL);
            let left = some_expression(rng, depth - 1);
            binary(operator, left, some_expression(rng, depth - 1))
        }
    }
}

/// A path of depth about 16 through arrays and both sides of operators.
fn some_depth(rng: &mut Rng) -> Vec<u8> {
    let depth = 14 + rng.below(5);
    let path = (1..depth).fold(constant(0), |inner, _| match rng.below(3) {
        0 => array(0, inner),
        1 => binary(Operator::Or, inner, scalar(1)),
        _ => binary(Operator::Add, scalar(1), inner),
    });
    let record = match rng.below(3) {
        0 => Record::Set(to_array(SetOperator::Plus, 1, path, constant(1))),
        1 => Record::Set(to_array(SetOperator::Plus, 1, constant(1), path)),
        _ => Record::Set(to_scalar(SetOperator::Xor, 0, path)),
    };
    cases::with_main(&[record])
}

pub fn to_hex(bytes: &[u8]) -> String {
    bytes.iter().map(|byte| format!("{byte:02x}")).collect()
}

/// None where the text is not pairs of lowercase hexadecimal digits.
pub fn from_hex(text: &str) -> Option<Vec<u8>> {
    let digits: Option<Vec<u8>> = text.bytes().map(hex_digit).collect();
    let digits = digits?;
    if digits.len() % 2 != 0 {
        return None;
    }
    Some(
        digits
            .chunks(2)
            .map(|pair| pair[0] * 16 + pair[1])
            .collect(),
    )
}

fn hex_digit(byte: u8) -> Option<u8> {
    match byte {
        b'0'..=b'9' => Some(byte - b'0'),
        b'a'..=b'f' => Some(byte - b'a' + 10),
        _ => None,
    }
}
