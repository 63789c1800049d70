//! Damage to sound files: bytes, lengths, whole records, and the numbers within records.

use crate::bytes::Reader;
use crate::check::MAX_FILE;
use crate::expression::Name;
use crate::lent::LentPlace;
use crate::place::Frame;
use crate::record::{Record, Target};
use crate::rng::Rng;

/// A program file with one to three damages; now and then it is still sound.
pub fn program_file(rng: &mut Rng, sound: &[u8]) -> Vec<u8> {
    let mut file = sound.to_vec();
    for _ in 0..1 + rng.below(3) {
        file = match rng.below(40) {
            0 => too_long(rng, file),
            1..=19 => one_record(rng, &file),
            _ => some_bytes(rng, file),
        };
    }
    file
}

/// A session file with one or two damages to its bytes.
pub fn session_file(rng: &mut Rng, sound: &[u8]) -> Vec<u8> {
    let mut file = sound.to_vec();
    for _ in 0..1 + rng.below(2) {
        file = match rng.below(5) {
            0 => another_store(rng, file),
            1 | 2 => head_byte(rng, file),
            _ => some_bytes(rng, file),
        };
    }
    file
}

/// A lent place with one raw field changed.
pub fn lent_place(rng: &mut Rng, sound: &LentPlace) -> LentPlace {
    let mut place = sound.clone();
    let at = rng.below(place.slots.len());
    match rng.below(7) {
        0 => place.direction ^= 1 << rng.below(8),
        1 => place.a = rng.small(20),
        2 => place.b = rng.small(20),
        3 => place.count = rng.small(3),
        4 => place.count = *rng.pick(&[1103, 1104, 1105, 65_535]),
        5 => place.slots[at] = Frame::new(rng.small(6), rng.small(20)),
        _ => place.slots[rng.below(4)].kind ^= 1 << rng.below(4),
    }
    place
}

/// Bytes past the limit, so few that the next damage may take them away again.
fn too_long(rng: &mut Rng, mut file: Vec<u8>) -> Vec<u8> {
    file.resize(MAX_FILE + 1 + rng.below(3), rng.byte());
    file
}

fn some_bytes(rng: &mut Rng, mut file: Vec<u8>) -> Vec<u8> {
    let at = rng.below(file.len() + 1);
    match rng.below(6) {
        0 => file.truncate(at),
        1 => file.insert(at, rng.byte()),
        2 => file.extend((0..1 + rng.below(5)).map(|_| rng.draw() as u8)),
        _ if at == file.len() => {}
        3 => drop(file.remove(at)),
        4 => file[at] = rng.byte(),
        _ => file[at] = file[at].wrapping_add(*rng.pick(&[1, 255])),
    }
    file
}

/// Within the PLACE record's head, where every field has its own rule.
fn head_byte(rng: &mut Rng, mut file: Vec<u8>) -> Vec<u8> {
    let head = file.len().min(16);
    if head > 0 {
        let at = rng.below(head);
        file[at] ^= 1 << rng.below(8);
    }
    file
}

/// Whole cells more or fewer in a STORE that otherwise stays sound.
fn another_store(rng: &mut Rng, file: Vec<u8>) -> Vec<u8> {
    let mut parts = framed_parts(&file);
    if parts.len() != 2 {
        return file;
    }
    let store = &mut parts[1];
    let length = 4 + 4 * rng.below(store.len() / 4 + 2);
    store.resize(length, 0);
    store[..2].copy_from_slice(&(length as u16).to_le_bytes());
    parts.concat()
}

/// The records of a file as they stand, up to the first that is cut.
fn framed_parts(file: &[u8]) -> Vec<Vec<u8>> {
    let mut reader = Reader::new(file);
    let mut parts = vec![];
    let mut at = 0;
    while let Some((_, body)) = reader.framed() {
        let end = at + 4 + body.len();
        parts.push(file[at..end].to_vec());
        at = end;
    }
    parts
}

fn one_record(rng: &mut Rng, file: &[u8]) -> Vec<u8> {
    let mut parts = framed_parts(file);
    if parts.is_empty() {
        return file.to_vec();
    }
    let (at, other) = (rng.below(parts.len()), rng.below(parts.len()));
    match rng.below(9) {
        0 => drop(parts.remove(at)),
        1 => parts.insert(at, parts[other].clone()),
        2 => parts.swap(at, other),
        3 => parts[at][2] = rng.byte() % 16,
        4 => parts[at].truncate(4),
        _ => parts[at] = with_another_number(rng, &parts[at]),
    }
    parts.concat()
}

/// Numbers beyond the sizes, numbers that are not there, and a target that its expression mentions.
fn with_another_number(rng: &mut Rng, part: &[u8]) -> Vec<u8> {
    let kind = u16::from(part[2]);
    let Some(mut record) = Record::parse(kind, &part[4..]) else {
        return part.to_vec();
    };
    match &mut record {
        Record::Names(names) if rng.percent(50) => names.scalars += 60,
        Record::Names(names) => names.lengths.push(*rng.pick(&[0, 1024, 1025])),
        Record::Call(callee) | Record::Uncall(callee) => *callee = rng.small(6),
        Record::Set(assignment) => {
            let mentioned = assignment.expression.names();
            match mentioned.first() {
                Some(Name::Scalar(number)) => assignment.target = Target::Scalar(*number),
                _ => assignment.target = Target::Scalar(rng.small(70)),
            }
        }
        _ => {}
    }
    let mut out = vec![];
    record.encode(&mut out);
    out
}
