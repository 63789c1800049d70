//! The stream of sessions: files right and damaged at every field and length, the order of 22, 20
//! and 21, saves into every size of buffer, and sessions of generated programs.

use crate::builder::*;
use crate::check::check;
use crate::damage;
use crate::generator;
use crate::lent::LentPlace;
use crate::misses::near_misses;
use crate::place::{Direction, Frame, Place, MAX_CALLS, MAX_FRAMES};
use crate::raw_session::{malformed, other_stores, unfit, RawSession};
use crate::rng::Rng;
use crate::stream::{Line, Script};
use crate::vectors::from_hex;
use crate::walk_cases::{
    all_frames_tree, calling_places, calling_tree, plain_places, plain_tree, refused_files,
    small_program,
};

/// A program with a place that fits and a store of its length.
struct Base {
    file: Vec<u8>,
    place: Place,
    store: Vec<i32>,
    /// What the lent store holds before a reading: no cell like the session's.
    lent: Vec<i32>,
}

impl Base {
    fn new(tree: &Tree, place: Place, store: &[i32]) -> Base {
        let file = tree.encode();
        let program = check(&file).expect("sound");
        assert!(place.fits(&program) && store.len() == program.cells());
        let lent = store.iter().map(|cell| cell.wrapping_add(77)).collect();
        Base {
            file,
            place,
            store: store.to_vec(),
            lent,
        }
    }

    fn raw(&self) -> RawSession {
        RawSession::of(&LentPlace::of(&self.place), &self.store)
    }

    fn saved(&self) -> Vec<u8> {
        self.raw().encode()
    }

    fn set(&self, script: &mut Script) {
        script.program(&self.file);
        script.store(&self.store);
        script.place(&LentPlace::of(&self.place));
    }

    /// Reads bytes; a store that was filled is lent anew.
    fn read(&self, script: &mut Script, bytes: Vec<u8>) {
        if script.says(Line::Read(bytes), 0) {
            script.store(&self.lent);
        }
    }
}

pub fn all() -> String {
    let mut script = Script::default();
    nothing_set(&mut script);
    for base in bases() {
        saves(&mut script, &base);
        readings(&mut script, &base);
    }
    let [_, in_loop, deep, _] = bases();
    every_byte(&mut script, &in_loop, &[1, 2, 4, 8, 16, 32, 64, 128, 255]);
    every_byte(&mut script, &deep, &[1, 4, 255]);
    let plain = plain_places().pop().expect("the last of them");
    for base in [deep, Base::new(&plain_tree(), plain, &[2])] {
        misses_saved(&mut script, &base);
        misses_read(&mut script, &base);
    }
    sixty_five_calls(&mut script);
    refused_programs(&mut script, &in_loop);
    all_frames(&mut script);
    all_cells(&mut script);
    longest_files(&mut script, &in_loop);
    generated(&mut script);
    script.into_text()
}

fn bases() -> [Base; 4] {
    let at = |a, b, frames: Vec<Frame>| Place {
        direction: Direction::Down,
        a,
        b,
        frames,
    };
    let in_first = vec![Frame::new(Frame::FIRST, 3)];
    let deep = calling_places().pop().expect("the last of them");
    let call = vec![Node::Call(1)];
    let endless = tree(0, &[], vec![call.clone(), call]);
    [
        Base::new(&example(), at(1, 2, vec![]), &[i32::MAX, i32::MIN]),
        Base::new(&example(), at(3, 4, in_first), &[1, -2]),
        Base::new(&calling_tree(), deep, &[-1]),
        Base::new(&endless, at(4, 5, calls(MAX_CALLS)), &[]),
    ]
}

/// Frames of so many calls in main CALL 1, procedure 1 CALL 1.
fn calls(count: usize) -> Vec<Frame> {
    let mut frames = vec![Frame::new(Frame::CALL, 5); count - 1];
    frames.push(Frame::new(Frame::CALL, 2));
    frames
}

/// The empty program is asked first.
fn nothing_set(script: &mut Script) {
    script.all(&[
        Line::Read(vec![]),
        Line::Read(vec![1, 2, 3]),
        Line::Save(0, 0),
        Line::Save(5, 255),
    ]);
}

/// Buffers too short, just right and longer; then 20 and 21 before 23.
fn saves(script: &mut Script, base: &Base) {
    base.set(script);
    let needed = base.saved().len();
    for (size, fill) in [
        (0, 0),
        (1, 255),
        (needed / 2, 7),
        (needed - 1, 165),
        (needed, 165),
        (needed, 0),
        (needed + 1, 255),
        (needed + 9, 90),
        (2 * needed, 1),
    ] {
        script.say(Line::Save(size, fill));
    }
    let longer = [&base.store[..], &[5]].concat();
    script.store(&longer);
    script.all(&[Line::Save(needed + 4, 3), Line::Save(0, 3)]);
    script.place(&LentPlace::blank());
    script.all(&[Line::Save(needed, 3), Line::Save(1, 3)]);
    script.store(&base.store);
    script.all(&[Line::Save(needed, 3), Line::Save(1, 3)]);
}

/// The right file; each fault alone; each of 22 with 20 and 21; each of 20 with 21.
fn readings(script: &mut Script, base: &Base) {
    script.program(&base.file);
    script.store(&base.lent);
    script.all(&[Line::Read(base.saved()), Line::Save(base.saved().len(), 9)]);
    script.all(&[Line::Step, Line::Back, Line::Back, Line::Step]);
    script.store(&base.lent);
    let raw = base.raw();
    let faults = [malformed(&raw), other_stores(&raw), unfit(&raw)].concat();
    for fault in faults {
        base.read(script, fault.encode());
    }
    let (store, place) = (&other_stores(&raw)[0], &unfit(&raw)[1]);
    for both in [malformed(store), malformed(place), other_stores(place)].concat() {
        base.read(script, both.encode());
    }
    other_lent_stores(script, base);
}

/// A lent store of another length: 20, after 22 and before 21.
fn other_lent_stores(script: &mut Script, base: &Base) {
    let raw = base.raw();
    let files = [
        raw.encode(),
        unfit(&raw)[1].encode(),
        malformed(&raw)[0].encode(),
        other_stores(&raw)[0].encode(),
    ];
    for length in [0, 1, 2, 3, 100] {
        if length != base.store.len() {
            script.say(Line::Zeros(length));
            for file in &files {
                script.say(Line::Read(file.clone()));
            }
        }
    }
    script.store(&vec![6; base.store.len() + 1]);
    script.say(Line::Read(raw.encode()));
}

/// Every beginning of the file, every byte changed, and every byte taken out.
fn every_byte(script: &mut Script, base: &Base, masks: &[u8]) {
    script.program(&base.file);
    script.store(&base.lent);
    let sound = base.saved();
    for at in 0..sound.len() {
        base.read(script, sound[..at].to_vec());
        for mask in masks {
            let mut changed = sound.clone();
            changed[at] ^= mask;
            base.read(script, changed);
        }
        let mut without = sound.clone();
        without.remove(at);
        base.read(script, without);
    }
    base.read(script, sound.clone());
    base.read(script, [&sound[..], &sound[..]].concat());
    let place_length = usize::from(sound[0]);
    let turned = [&sound[place_length..], &sound[..place_length]].concat();
    base.read(script, turned);
    base.read(script, sound[place_length..].to_vec());
}

/// A lent place that does not fit is saved by nobody: 21, before 23.
fn misses_saved(script: &mut Script, base: &Base) {
    base.set(script);
    let records = check(&base.file).expect("sound").records.len() as u16;
    let needed = base.saved().len();
    for (number, miss) in near_misses(&base.place, records).iter().enumerate() {
        script.place(miss);
        let size = if number % 3 == 0 { 2 } else { needed + 4 };
        script.say(Line::Save(size, 66));
    }
}

/// The same places in files, as far as a file can hold them: 22 or 21.
fn misses_read(script: &mut Script, base: &Base) {
    base.set(script);
    script.store(&base.lent);
    let records = check(&base.file).expect("sound").records.len() as u16;
    for miss in near_misses(&base.place, records) {
        let raw = RawSession::of(&miss, &base.store);
        base.read(script, raw.encode());
    }
}

/// 64 calls are read, 65 are 21.
fn sixty_five_calls(script: &mut Script) {
    let [.., base] = bases();
    base.set(script);
    for count in [63, 64, 65, 66] {
        let raw = RawSession {
            count: None,
            frames: calls(count),
            ..base.raw()
        };
        base.read(script, raw.encode());
        script.all(&[Line::Save(300, 0), Line::Step, Line::Back]);
    }
}

/// 1 to 8 with their record, before 22, 20, 21 and 23.
fn refused_programs(script: &mut Script, base: &Base) {
    let sound = base.saved();
    for file in refused_files() {
        base.set(script);
        script.program(&file);
        script.all(&[Line::Save(sound.len(), 3), Line::Save(0, 3)]);
        script.all(&[Line::Read(sound.clone()), Line::Read(vec![])]);
        script.say(Line::Zeros(7));
        script.all(&[Line::Read(sound.clone()), Line::Save(64, 4)]);
    }
}

/// A session of 1,104 frames, and files that miss it.
fn all_frames(script: &mut Script) {
    script.program(&all_frames_tree().encode());
    script.store(&[-1]);
    script.say(Line::Start(Direction::Down));
    script.say(Line::Run(u32::MAX));
    let deepest = script.desk.place.clone();
    assert_eq!(deepest.used().len(), MAX_FRAMES);
    let sound = RawSession::of(&deepest, &[-1]);
    let size = sound.encode().len();
    script.all(&[Line::Save(size - 1, 5), Line::Save(size, 5)]);
    script.store(&[4]);
    script.say(Line::Read(sound.encode()));
    script.all(&[Line::Step, Line::Back]);
    let mut outermost = sound.clone();
    outermost.frames[MAX_FRAMES - 1].kind ^= 1;
    let mut over = sound.clone();
    over.count = None;
    over.frames.push(Frame::new(Frame::TRUE, 2));
    let mut cut = sound.encode();
    cut.pop();
    for file in [outermost.encode(), over.encode(), cut] {
        script.say(Line::Read(file));
    }
}

/// A session of 2,048 cells, and one of 2,049.
fn all_cells(script: &mut Script) {
    let ends = vec![
        plus_at(0, constant(0), constant(-1)),
        plus_at(1, constant(1023), constant(i32::MIN)),
    ];
    script.program(&tree(0, &[1024, 1024], vec![ends]).encode());
    script.say(Line::Zeros(2048));
    script.say(Line::Start(Direction::Down));
    script.all(&[Line::Run(2), Line::Save(12 + 4 + 4 * 2048, 1)]);
    let sound = RawSession::of(&script.desk.place, &script.desk.store);
    script.say(Line::RunBack(1));
    script.say(Line::Read(sound.encode()));
    let mut longer = sound.clone();
    longer.cells.push(0);
    script.say(Line::Read(longer.encode()));
    script.say(Line::Zeros(2049));
    script.all(&[Line::Read(sound.encode()), Line::Save(9000, 1)]);
}

/// 16,382 cells are 20, with 1,104 frames too; a broken cell or a byte after them is 22.
fn longest_files(script: &mut Script, base: &Base) {
    script.program(&base.file);
    script.store(&base.lent);
    let many = RawSession {
        cells: vec![1; 16_382],
        ..base.raw()
    };
    let mut longest = many.clone();
    longest.count = None;
    longest.frames = vec![Frame::new(Frame::CALL, 9); MAX_FRAMES];
    let mut broken = many.clone();
    broken.store_rest = vec![0; 3];
    let mut over = longest.clone();
    over.after = vec![0];
    for raw in [many, longest, broken, over] {
        script.say(Line::Read(raw.encode()));
    }
}

/// Sessions of generated programs on the way, read back, damaged, and read by the next program.
fn generated(script: &mut Script) {
    let mut rng = Rng::new(13);
    let mut former = vec![];
    for _ in 0..170 {
        let file = small_program(&mut rng);
        let program = check(&file).expect("the generator makes sound programs");
        script.program(&file);
        script.store(&generator::store(&mut rng, program.cells()));
        script.say(Line::Read(former.clone()));
        for _ in 0..2 {
            let place = generator::place(&mut rng, &program);
            if place.frames.len() > 80 {
                continue;
            }
            script.place(&LentPlace::of(&place));
            script.all(&[Line::Step, Line::Step]);
            former = saved_and_read(script, &mut rng);
            damaged(script, &mut rng, &former);
        }
    }
}

/// Saves into too short a buffer, then with a byte or two to spare, and reads that file into another store.
fn saved_and_read(script: &mut Script, rng: &mut Rng) -> Vec<u8> {
    let needed = RawSession::of(&script.desk.place, &script.desk.store);
    let needed = needed.encode().len();
    script.say(Line::Save(rng.below(needed), rng.byte()));
    let size = needed + rng.below(3);
    let answer = script.say(Line::Save(size, rng.byte()));
    let words: Vec<&str> = answer.split(' ').collect();
    assert_eq!(words[0], "0");
    let written: usize = words[2].parse().expect("the bytes written");
    let bytes = from_hex(words[3]).expect("the buffer")[..written].to_vec();
    let other = script.desk.store.iter().map(|cell| cell ^ 5).collect();
    script.say(Line::Store(other));
    script.say(Line::Read(bytes.clone()));
    script.all(&[Line::Back, Line::Run(3)]);
    bytes
}

fn damaged(script: &mut Script, rng: &mut Rng, sound: &[u8]) {
    for _ in 0..7 {
        let file = damage::session_file(rng, sound);
        if script.says(Line::Read(file), 0) {
            script.say(Line::Step);
        }
    }
    script.say(Line::Read(sound.to_vec()));
}
