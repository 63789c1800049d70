//! The properties that every generated case must have; a broken one panics with its case.

use crate::calls;
use crate::check::check;
use crate::damage;
use crate::generator;
use crate::lent::LentPlace;
use crate::machine::{back, run, run_back, step};
use crate::number::{Number, Refusal};
use crate::place::{down_to_call, Direction, Frame, Place, MAX_CALLS, MAX_FRAMES};
use crate::program::Program;
use crate::record::Record;
use crate::rng::Rng;
use crate::tally::{Tally, ACCEPTED};

/// One program and all that is tried on it.
pub struct Walk<'a> {
    rng: &'a mut Rng,
    tally: &'a mut Tally,
    file: Vec<u8>,
    program: Program,
}

/// Generates so many programs and tries the properties on each.
pub fn walks(seed: u64, count: usize) -> Tally {
    let mut rng = Rng::new(seed);
    let mut tally = Tally::default();
    for _ in 0..count {
        let file = generator::program(&mut rng).encode();
        let program = check(&file).expect("the generator makes sound programs");
        tally.note(ACCEPTED);
        let mut walk = Walk {
            rng: &mut rng,
            tally: &mut tally,
            file,
            program,
        };
        walk.whole();
    }
    tally
}

impl Walk<'_> {
    fn whole(&mut self) {
        self.there_and_back();
        self.wander(150);
        self.wander(150);
        for _ in 0..4 {
            self.damaged_program();
        }
    }

    fn begin(&mut self) -> (Place, Vec<i32>) {
        let place = generator::place(self.rng, &self.program);
        assert!(place.fits(&self.program), "{place:?} {:?}", self.file);
        let store = generator::store(self.rng, self.program.cells());
        (place, store)
    }

    /// As many steps back as were made lead to where the run began, every cell equal.
    fn there_and_back(&mut self) {
        let (place, store) = self.begin();
        let mut moved = store.clone();
        let ran = run(&self.program, &place, &mut moved, 5_000);
        self.note_reason(ran.reason);
        let deepest = ran.place.calls() == MAX_CALLS && place.calls() == 0;
        if ran.place.frames.len() == MAX_FRAMES {
            self.tally.note("1,104 frames");
        }
        let returned = run_back(&self.program, &ran.place, &mut moved, ran.steps);
        assert_eq!(returned.steps, ran.steps, "{:?}", self.file);
        assert_eq!(
            (&returned.place, &moved),
            (&place, &store),
            "{:?}",
            self.file
        );
        if deepest {
            self.tally.note("64 calls and back to the beginning");
        }
    }

    fn note_reason(&mut self, reason: Option<Number>) {
        if let Some(number) = reason {
            self.tally.note_number(number);
        }
    }

    /// Steps either way, turning now and then and where refused; sessions on the way.
    fn wander(&mut self, moves: usize) {
        let (mut place, mut store) = self.begin();
        for _ in 0..moves {
            if self.rng.percent(5) {
                place = place.turned();
            }
            match self.try_step(&place, &mut store) {
                Some(next) => place = next,
                None => place = place.turned(),
            }
            if self.rng.percent(3) {
                self.try_sessions(&place, &store);
                self.try_lent(&place, &store);
            }
        }
    }

    /// A step that arrives is undone by the opposite step; a refused one changes nothing.
    fn try_step(&mut self, place: &Place, store: &mut Vec<i32>) -> Option<Place> {
        let before = store.clone();
        match step(&self.program, place, store) {
            Ok(next) => {
                assert!(next.fits(&self.program), "{place:?} {:?}", self.file);
                let mut undone = store.clone();
                let origin = back(&self.program, &next, &mut undone);
                assert_eq!((origin, &undone), (Ok(place.clone()), &before));
                self.note_arrival(place, &next);
                Some(next)
            }
            Err(number) => {
                assert_eq!(*store, before, "{place:?} {:?}", self.file);
                self.tally.note_number(number);
                None
            }
        }
    }

    fn note_arrival(&mut self, from: &Place, to: &Place) {
        let way = from.direction.word();
        self.tally.note(&format!("arrived {way}"));
        let record = self.program.record(from.b).clone();
        for expression in record.expressions() {
            for operator in expression.operators() {
                self.tally.note_operator(operator);
            }
        }
        match record {
            Record::Set(assignment) => self.tally.note_set(assignment.operator, way),
            Record::Call(_) => self.tally.note(&format!("calls met {way}")),
            Record::Uncall(_) => self.tally.note(&format!("uncalls met {way}")),
            Record::Until(_) if from.direction == Direction::Down => self.note_loop(to, way),
            Record::From(_) if from.direction == Direction::Up => self.note_loop(to, way),
            _ => {}
        }
        if down_to_call(&to.frames).0.len() == 16 {
            self.tally.note("16 constructs open");
        }
        if to.calls() == MAX_CALLS {
            self.tally.note("64 calls open");
        }
    }

    /// After UNTIL down or FROM up, frame 3 on top says that the loop goes round.
    fn note_loop(&mut self, to: &Place, way: &str) {
        let opener = self.program.opener(to.a);
        let round = to.frames.first() == Some(&Frame::new(Frame::SECOND, opener));
        let what = if round { "gone round" } else { "left" };
        self.tally.note(&format!("loops {what} {way}"));
    }

    /// A session file reads back the same, and saving what was read gives the same bytes.
    fn try_sessions(&mut self, place: &Place, store: &[i32]) {
        let lent = LentPlace::of(place);
        let mut buffer = vec![0xA5; 16_000];
        let saved = calls::save(&self.file, &lent, store, &mut buffer);
        assert_eq!(saved.refusal, None, "{place:?} {:?}", self.file);
        assert!(buffer[saved.written..].iter().all(|&byte| byte == 0xA5));
        let bytes = &buffer[..saved.written];
        let mut read = vec![0; store.len()];
        let answer = calls::read(&self.file, bytes, &mut read);
        assert_eq!(answer.refusal, None);
        assert_eq!((&answer.place, &read[..]), (&lent, store));
        self.try_short_buffer(&lent, store, bytes.len());
        for _ in 0..4 {
            let damaged = damage::session_file(self.rng, bytes);
            self.try_damaged_session(&damaged);
        }
    }

    fn try_short_buffer(&mut self, lent: &LentPlace, store: &[i32], needed: usize) {
        let mut buffer = vec![0x5A; self.rng.below(needed)];
        let answer = calls::save(&self.file, lent, store, &mut buffer);
        assert_eq!(answer.refusal, Some(Refusal::plain(Number::BufferTooShort)));
        assert_eq!(answer.written, 0);
        assert!(buffer.iter().all(|&byte| byte == 0x5A));
        self.tally.note_number(Number::BufferTooShort);
    }

    /// A refused reading leaves the lent store; an accepted file is the only one of its session.
    fn try_damaged_session(&mut self, damaged: &[u8]) {
        let lent_before = vec![-3; self.program.cells()];
        let mut read = lent_before.clone();
        let answer = calls::read(&self.file, damaged, &mut read);
        match answer.refusal {
            Some(refusal) => {
                self.tally.note_number(refusal.number);
                assert_eq!(answer.place, LentPlace::blank());
                assert_eq!(read, lent_before);
            }
            None => {
                let mut buffer = vec![0; damaged.len()];
                let saved = calls::save(&self.file, &answer.place, &read, &mut buffer);
                assert_eq!(saved.written, damaged.len());
                assert_eq!(buffer, damaged);
            }
        }
    }

    /// A lent place that does not fit is 21 and comes back as it was given.
    fn try_lent(&mut self, place: &Place, store: &[i32]) {
        let damaged = damage::lent_place(self.rng, &LentPlace::of(place));
        let mut after = store.to_vec();
        let fits = calls::fits(&self.file, &damaged) == Ok(true);
        let answer = calls::step(&self.file, &damaged, &mut after);
        let unfit = answer.refusal == Some(Refusal::plain(Number::PlaceDoesNotFit));
        assert_eq!(fits, !unfit, "{damaged:?} {:?}", self.file);
        if answer.refusal.is_some() {
            assert_eq!((&answer.place, &after[..]), (&damaged, store));
        }
        let mut longer = vec![0; store.len() + 1];
        let answer = calls::run(&self.file, &damaged, &mut longer, 0);
        assert_eq!(answer.refusal, Some(Refusal::plain(Number::StoreLength)));
        self.tally.note_number(Number::StoreLength);
    }

    /// A damaged file is refused alike by every call, or is a program that steps like any other.
    fn damaged_program(&mut self) {
        let file = damage::program_file(self.rng, &self.file);
        match check(&file) {
            Ok(program) => {
                self.tally.note(ACCEPTED);
                let mut walk = Walk {
                    rng: self.rng,
                    tally: self.tally,
                    file,
                    program,
                };
                walk.wander(20);
            }
            Err(refusal) => {
                self.tally.note_number(refusal.number);
                assert!(refusal.number <= Number::OwnName && refusal.record.is_some());
                let blank = LentPlace::blank();
                let stepped = calls::step(&file, &blank, &mut []);
                assert_eq!(stepped.refusal, Some(refusal));
                assert_eq!(stepped.place, blank);
            }
        }
    }
}
