//! The calls of document 01 on bytes and lent places: each checks the program, then 22, 20, 21, 23.

use crate::check::check;
use crate::lent::LentPlace;
use crate::machine;
use crate::number::{Number, Refusal};
use crate::place::{Direction, Place};
use crate::program::Program;
use crate::session::Session;

/// What a step or a reading answers; a refused step returns the place given, a refused reading the blank one.
#[derive(Clone, Debug, PartialEq, Eq)]
pub struct Answer {
    pub refusal: Option<Refusal>,
    pub place: LentPlace,
}

/// What a run answers; the refusal is none where all n were made.
#[derive(Clone, Debug, PartialEq, Eq)]
pub struct RunAnswer {
    pub steps: u32,
    pub refusal: Option<Refusal>,
    pub place: LentPlace,
}

#[derive(Clone, Copy, Debug, PartialEq, Eq)]
pub struct SaveAnswer {
    pub written: usize,
    pub refusal: Option<Refusal>,
}

/// The program must be sound; the place returned needs no store.
pub fn start(file: &[u8], direction: Direction) -> Result<Place, Refusal> {
    Ok(Place::start(&check(file)?, direction))
}

pub fn fits(file: &[u8], place: &LentPlace) -> Result<bool, Refusal> {
    let program = check(file)?;
    Ok(fitting(&program, place).is_ok())
}

pub fn step(file: &[u8], place: &LentPlace, store: &mut [i32]) -> Answer {
    single(file, place, store, machine::step)
}

pub fn back(file: &[u8], place: &LentPlace, store: &mut [i32]) -> Answer {
    single(file, place, store, machine::back)
}

pub fn run(file: &[u8], place: &LentPlace, store: &mut [i32], n: u32) -> RunAnswer {
    many(file, place, store, n, machine::run)
}

pub fn run_back(file: &[u8], place: &LentPlace, store: &mut [i32], n: u32) -> RunAnswer {
    many(file, place, store, n, machine::run_back)
}

/// Fills the lent store where the session is read, else leaves it untouched.
pub fn read(file: &[u8], saved: &[u8], store: &mut [i32]) -> Answer {
    let checked = check(file);
    match checked.and_then(|program| read_session(&program, saved, store.len())) {
        Ok(session) => {
            store.copy_from_slice(&session.store);
            Answer {
                refusal: None,
                place: LentPlace::of(&session.place),
            }
        }
        Err(refusal) => Answer {
            refusal: Some(refusal),
            place: LentPlace::blank(),
        },
    }
}

/// Bytes of the buffer after the written ones keep their values.
pub fn save(file: &[u8], place: &LentPlace, store: &[i32], buffer: &mut [u8]) -> SaveAnswer {
    match try_save(file, place, store, buffer) {
        Ok(written) => SaveAnswer {
            written,
            refusal: None,
        },
        Err(refusal) => SaveAnswer {
            written: 0,
            refusal: Some(refusal),
        },
    }
}

/// All of 22, then all of 20 (the file's store, the lent one), then 21; the program is sound.
pub fn read_session(program: &Program, saved: &[u8], lent: usize) -> Result<Session, Refusal> {
    let session = Session::parse(saved).ok_or(Refusal::plain(Number::SessionMalformed))?;
    has_store_length(program, session.store.len())?;
    has_store_length(program, lent)?;
    if !session.place.fits(program) {
        return Err(Refusal::plain(Number::PlaceDoesNotFit));
    }
    Ok(session)
}

fn try_save(
    file: &[u8],
    place: &LentPlace,
    store: &[i32],
    buffer: &mut [u8],
) -> Result<usize, Refusal> {
    let (_, place) = ready(file, place, store)?;
    let session = Session {
        place,
        store: store.to_vec(),
    };
    let bytes = session.encode();
    let room = buffer
        .get_mut(..bytes.len())
        .ok_or(Refusal::plain(Number::BufferTooShort))?;
    room.copy_from_slice(&bytes);
    Ok(bytes.len())
}

fn has_store_length(program: &Program, length: usize) -> Result<(), Refusal> {
    if length != program.cells() {
        return Err(Refusal::plain(Number::StoreLength));
    }
    Ok(())
}

fn fitting(program: &Program, lent: &LentPlace) -> Result<Place, Refusal> {
    lent.place()
        .filter(|place| place.fits(program))
        .ok_or(Refusal::plain(Number::PlaceDoesNotFit))
}

/// 1 to 8, then 20, then 21.
fn ready(file: &[u8], lent: &LentPlace, store: &[i32]) -> Result<(Program, Place), Refusal> {
    let program = check(file)?;
    has_store_length(&program, store.len())?;
    let place = fitting(&program, lent)?;
    Ok((program, place))
}

type Move = fn(&Program, &Place, &mut [i32]) -> Result<Place, Number>;
type Moves = fn(&Program, &Place, &mut [i32], u32) -> machine::Run;

fn single(file: &[u8], lent: &LentPlace, store: &mut [i32], make: Move) -> Answer {
    let moved = ready(file, lent, store)
        .and_then(|(program, place)| make(&program, &place, store).map_err(Refusal::plain));
    match moved {
        Ok(place) => Answer {
            refusal: None,
            place: LentPlace::of(&place),
        },
        Err(refusal) => Answer {
            refusal: Some(refusal),
            place: lent.clone(),
        },
    }
}

fn many(file: &[u8], lent: &LentPlace, store: &mut [i32], n: u32, make: Moves) -> RunAnswer {
    match ready(file, lent, store) {
        Ok((program, place)) => {
            let ran = make(&program, &place, store, n);
            RunAnswer {
                steps: ran.steps,
                refusal: ran.reason.map(Refusal::plain),
                place: LentPlace::of(&ran.place),
            }
        }
        Err(refusal) => RunAnswer {
            steps: 0,
            refusal: Some(refusal),
            place: lent.clone(),
        },
    }
}
