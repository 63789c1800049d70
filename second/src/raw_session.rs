//! A session file with each field apart, and the changes that make it 22, 20 or 21.

use crate::bytes::{put_i32, put_u16};
use crate::lent::LentPlace;
use crate::place::Frame;
use crate::session::{PLACE_KIND, STORE_KIND};

/// Lengths and the count are right where nothing else is said.
#[derive(Clone, Debug)]
pub struct RawSession {
    pub place_length: Option<u16>,
    pub place_kind: u16,
    pub direction: u8,
    pub spare: u8,
    pub a: u16,
    pub b: u16,
    pub count: Option<u16>,
    pub frames: Vec<Frame>,
    /// Bytes of the PLACE record after its frames.
    pub place_rest: Vec<u8>,
    pub store_length: Option<u16>,
    pub store_kind: u16,
    pub cells: Vec<i32>,
    /// Bytes of the STORE record after its whole cells.
    pub store_rest: Vec<u8>,
    pub after: Vec<u8>,
}

impl RawSession {
    pub fn of(place: &LentPlace, cells: &[i32]) -> RawSession {
        RawSession {
            place_length: None,
            place_kind: PLACE_KIND,
            direction: place.direction,
            spare: 0,
            a: place.a,
            b: place.b,
            count: Some(place.count),
            frames: place.used().to_vec(),
            place_rest: vec![],
            store_length: None,
            store_kind: STORE_KIND,
            cells: cells.to_vec(),
            store_rest: vec![],
            after: vec![],
        }
    }

    pub fn encode(&self) -> Vec<u8> {
        let mut out = record(self.place_length, self.place_kind, &self.place_body());
        let mut body = vec![];
        self.cells.iter().for_each(|cell| put_i32(&mut body, *cell));
        body.extend(&self.store_rest);
        out.extend(record(self.store_length, self.store_kind, &body));
        out.extend(&self.after);
        out
    }

    fn place_body(&self) -> Vec<u8> {
        let mut body = vec![self.direction, self.spare];
        put_u16(&mut body, self.a);
        put_u16(&mut body, self.b);
        put_u16(&mut body, self.count.unwrap_or(self.frames.len() as u16));
        for frame in &self.frames {
            put_u16(&mut body, frame.kind);
            put_u16(&mut body, frame.label);
        }
        body.extend(&self.place_rest);
        body
    }

    fn right_place_length(&self) -> u16 {
        (4 + self.place_body().len()) as u16
    }

    fn right_store_length(&self) -> u16 {
        (4 + 4 * self.cells.len() + self.store_rest.len()) as u16
    }
}

fn record(length: Option<u16>, kind: u16, body: &[u8]) -> Vec<u8> {
    let mut out = vec![];
    put_u16(&mut out, length.unwrap_or((4 + body.len()) as u16));
    put_u16(&mut out, kind);
    out.extend(body);
    out
}

/// The files that one value in a field of a sound session makes.
fn each<T: Copy>(
    sound: &RawSession,
    values: &[T],
    change: fn(&mut RawSession, T),
) -> Vec<RawSession> {
    let with = |value: &T| {
        let mut raw = sound.clone();
        change(&mut raw, *value);
        raw
    };
    values.iter().map(with).collect()
}

/// Framing, kinds and the listed fields: 22.
pub fn malformed(sound: &RawSession) -> Vec<RawSession> {
    [
        malformed_place(sound),
        malformed_frames(sound),
        malformed_store(sound),
    ]
    .concat()
}

fn malformed_place(sound: &RawSession) -> Vec<RawSession> {
    let right = sound.right_place_length();
    let lengths = [
        0,
        3,
        4,
        11,
        right - 4,
        right - 1,
        right + 1,
        right + 4,
        65_535,
    ];
    let count = sound.frames.len() as u16;
    let counts = [count.wrapping_sub(1), count + 1, 1104, 1105, 65_535];
    [
        each(sound, &lengths, |raw, n| raw.place_length = Some(n)),
        each(sound, &KINDS, |raw, kind| raw.place_kind = kind),
        each(sound, &[33], |raw, kind| raw.place_kind = kind),
        each(sound, &[2, 3, 128, 255], |raw, code| raw.direction = code),
        each(sound, &[1, 128, 255], |raw, spare| raw.spare = spare),
        each(sound, &counts, |raw, count| raw.count = Some(count)),
        each(sound, &[1, 2, 3, 4], |raw, n| raw.place_rest = vec![0; n]),
        each(sound, &[1105], |raw, n| {
            raw.count = None;
            raw.frames = vec![Frame::new(0, 2); n];
        }),
    ]
    .concat()
}

/// Kinds that neither record has.
const KINDS: [u16; 7] = [0, 1, 31, 34, 32 + 256, 33 + 256, 65_535];

fn malformed_frames(sound: &RawSession) -> Vec<RawSession> {
    let mut found = vec![];
    for at in ends(sound.frames.len()) {
        for kind in [5, 6, 255, 256, 65_535] {
            let mut raw = sound.clone();
            raw.frames[at].kind = kind;
            found.push(raw);
        }
    }
    found
}

fn ends(length: usize) -> Vec<usize> {
    match length {
        0 | 1 => (0..length).collect(),
        _ => vec![0, length - 1],
    }
}

fn malformed_store(sound: &RawSession) -> Vec<RawSession> {
    let right = sound.right_store_length();
    let lengths = [0, 3, right - 1, right + 1, right + 4, 65_535];
    let store = record(None, STORE_KIND, &[]);
    let mut found = [
        each(sound, &lengths, |raw, n| raw.store_length = Some(n)),
        each(sound, &KINDS, |raw, kind| raw.store_kind = kind),
        each(sound, &[32], |raw, kind| raw.store_kind = kind),
        each(sound, &[1, 2, 3], |raw, n| raw.store_rest = vec![255; n]),
        each(sound, &[1, 2, 3, 4, 5], |raw, n| raw.after = vec![0; n]),
    ]
    .concat();
    found.push(RawSession {
        after: store,
        ..sound.clone()
    });
    found
}

/// A STORE of another number of whole cells: 20.
pub fn other_stores(sound: &RawSession) -> Vec<RawSession> {
    let cells = sound.cells.len();
    let others: Vec<usize> = [0, cells.saturating_sub(1), cells + 1, cells + 2, 40]
        .into_iter()
        .filter(|other| *other != cells)
        .collect();
    each(sound, &others, |raw, n| raw.cells.resize(n, 9))
}

/// Places of their own that fit no program of few records: 21.
pub fn unfit(sound: &RawSession) -> Vec<RawSession> {
    let labels = [0, 900, 1024, 65_535];
    let mut found = [
        each(sound, &[1], |raw, flip| raw.direction ^= flip),
        each(sound, &labels, |raw, label| raw.a = label),
        each(sound, &labels, |raw, label| raw.b = label),
        each(sound, &[1104], |raw, n| {
            raw.count = None;
            raw.frames = vec![Frame::new(0, 2); n];
        }),
    ]
    .concat();
    for at in ends(sound.frames.len()) {
        for label in labels {
            let mut raw = sound.clone();
            raw.frames[at].label = label;
            found.push(raw);
        }
    }
    found
}
