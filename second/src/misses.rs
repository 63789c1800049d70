//! Places that nearly fit: a fitting place with one thing changed, each change with a rule of its own.

use crate::lent::LentPlace;
use crate::place::{Frame, Place, MAX_FRAMES};

/// Changes of the head, the count, the unused slots and the frames; a few of them fit after all.
pub fn near_misses(place: &Place, records: u16) -> Vec<LentPlace> {
    let sound = LentPlace::of(place);
    let mut found = heads(&sound, records);
    found.extend(counts(&sound));
    found.extend(rubbish(&sound));
    let lists = frame_lists(&place.frames, records);
    found.extend(lists.into_iter().map(|frames| with_frames(place, frames)));
    let mut kept: Vec<LentPlace> = vec![];
    for miss in found {
        if miss != sound && !kept.contains(&miss) {
            kept.push(miss);
        }
    }
    kept
}

fn with_frames(place: &Place, frames: Vec<Frame>) -> LentPlace {
    LentPlace::of(&Place {
        frames,
        ..place.clone()
    })
}

fn changed(sound: &LentPlace, change: impl FnOnce(&mut LentPlace)) -> LentPlace {
    let mut place = sound.clone();
    change(&mut place);
    place
}

/// Direction flipped alone, a and b swapped alone, both (it fits), labels one off and out of range.
fn heads(sound: &LentPlace, records: u16) -> Vec<LentPlace> {
    let (a, b) = (sound.a, sound.b);
    let mut found = vec![
        changed(sound, |place| place.direction ^= 1),
        changed(sound, |place| (place.a, place.b) = (b, a)),
        changed(sound, |place| {
            place.direction ^= 1;
            (place.a, place.b) = (b, a);
        }),
    ];
    for code in [2, 3, 128, 255] {
        found.push(changed(sound, |place| place.direction = code));
    }
    for label in other_labels(a, records) {
        found.push(changed(sound, |place| place.a = label));
    }
    for label in other_labels(b, records) {
        found.push(changed(sound, |place| place.b = label));
    }
    found
}

fn other_labels(label: u16, records: u16) -> [u16; 7] {
    [
        label.wrapping_sub(1),
        label.wrapping_add(1),
        0,
        records,
        records + 1,
        1024,
        65_535,
    ]
}

/// One slot more or fewer.
fn counts(sound: &LentPlace) -> Vec<LentPlace> {
    let others = [sound.count.saturating_sub(1), sound.count + 1];
    with_counts(sound, &others)
}

/// Counts at the limit and over it: every slot is used, so an answer line is long.
pub fn large_counts(place: &Place) -> Vec<LentPlace> {
    with_counts(&LentPlace::of(place), &[1103, 1104, 1105, 32_768, 65_535])
}

fn with_counts(sound: &LentPlace, counts: &[u16]) -> Vec<LentPlace> {
    counts
        .iter()
        .map(|&count| changed(sound, |place| place.count = count))
        .collect()
}

/// One unused slot that is not 0: the first, the second, the last.
fn rubbish(sound: &LentPlace) -> Vec<LentPlace> {
    let first = usize::from(sound.count);
    let mut found = vec![];
    for at in [first, first + 1, MAX_FRAMES - 1] {
        for frame in [(0, 1), (1, 0), (4, 2), (65_535, 65_535)] {
            if at < MAX_FRAMES {
                found.push(changed(sound, |place| {
                    place.slots[at] = Frame::new(frame.0, frame.1)
                }));
            }
        }
    }
    found
}

/// Frames missing, extra, out of order, or with another kind or label.
fn frame_lists(frames: &[Frame], records: u16) -> Vec<Vec<Frame>> {
    let mut found = vec![frames.iter().rev().copied().collect()];
    for at in places_of_interest(frames.len()) {
        let mut fewer = frames.to_vec();
        let frame = fewer.remove(at);
        found.push(fewer);
        let mut other = |frame: Frame| {
            let mut list = frames.to_vec();
            list[at] = frame;
            found.push(list);
        };
        for kind in [0, 1, 2, 3, 4, 5, 255, 256, 65_535] {
            other(Frame::new(kind, frame.label));
        }
        for label in other_labels(frame.label, records) {
            other(Frame::new(frame.kind, label));
        }
        if frame.is_call() {
            (1..records).for_each(|label| other(Frame::new(Frame::CALL, label)));
        }
        if at > 0 {
            let mut swapped = frames.to_vec();
            swapped.swap(at - 1, at);
            found.push(swapped);
        }
    }
    found.extend(longer(frames));
    found
}

/// A frame twice, and a foreign one innermost and outermost.
fn longer(frames: &[Frame]) -> Vec<Vec<Frame>> {
    let mut found = vec![];
    let mut insert = |at: usize, frame: Frame| {
        let mut list = frames.to_vec();
        list.insert(at, frame);
        found.push(list);
    };
    for at in places_of_interest(frames.len()) {
        insert(at, frames[at]);
    }
    for frame in [(0, 2), (2, 2), (4, 2)] {
        insert(0, Frame::new(frame.0, frame.1));
        insert(frames.len(), Frame::new(frame.0, frame.1));
    }
    found
}

/// All of a few frames; of many the ends and the middle.
fn places_of_interest(length: usize) -> Vec<usize> {
    match length {
        0..=8 => (0..length).collect(),
        _ => vec![0, 1, length / 2, length - 2, length - 1],
    }
}
