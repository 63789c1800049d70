//! Session files: one PLACE record, one STORE record, nothing after.

use crate::bytes::{put_framed, put_i32, put_u16, Reader};
use crate::place::{Direction, Frame, Place, MAX_FRAMES};

pub const PLACE_KIND: u16 = 32;
pub const STORE_KIND: u16 = 33;

/// A file that is no 22: its place may still not fit, its store may have another length.
#[derive(Clone, Debug, PartialEq, Eq)]
pub struct Session {
    pub place: Place,
    pub store: Vec<i32>,
}

impl Session {
    /// None where the file is malformed (22).
    pub fn parse(saved: &[u8]) -> Option<Session> {
        let mut reader = Reader::new(saved);
        let place = parse_place(body_of(&mut reader, PLACE_KIND)?)?;
        let store = parse_store(body_of(&mut reader, STORE_KIND)?)?;
        reader.is_empty().then_some(Session { place, store })
    }

    pub fn encode(&self) -> Vec<u8> {
        let mut out = vec![];
        put_framed(&mut out, PLACE_KIND, &place_body(&self.place));
        put_framed(&mut out, STORE_KIND, &store_body(&self.store));
        out
    }
}

fn body_of<'a>(reader: &mut Reader<'a>, wanted: u16) -> Option<&'a [u8]> {
    let (kind, body) = reader.framed()?;
    (kind == wanted).then_some(body)
}

fn parse_place(body: &[u8]) -> Option<Place> {
    let mut reader = Reader::new(body);
    let direction = Direction::from_code(reader.u8()?)?;
    let spare = reader.u8()?;
    let a = reader.u16()?;
    let b = reader.u16()?;
    let count = usize::from(reader.u16()?);
    if spare != 0 || count > MAX_FRAMES {
        return None;
    }
    let frames = (0..count)
        .map(|_| parse_frame(&mut reader))
        .collect::<Option<_>>()?;
    reader.is_empty().then_some(Place {
        direction,
        a,
        b,
        frames,
    })
}

fn parse_frame(reader: &mut Reader) -> Option<Frame> {
    let frame = Frame::new(reader.u16()?, reader.u16()?);
    (frame.kind <= Frame::CALL).then_some(frame)
}

fn parse_store(body: &[u8]) -> Option<Vec<i32>> {
    let mut reader = Reader::new(body);
    let mut cells = vec![];
    while !reader.is_empty() {
        cells.push(reader.i32()?);
    }
    Some(cells)
}

fn place_body(place: &Place) -> Vec<u8> {
    let mut body = vec![place.direction.code(), 0];
    put_u16(&mut body, place.a);
    put_u16(&mut body, place.b);
    let count = u16::try_from(place.frames.len()).expect("a fitting place has few frames");
    put_u16(&mut body, count);
    for frame in &place.frames {
        put_u16(&mut body, frame.kind);
        put_u16(&mut body, frame.label);
    }
    body
}

fn store_body(store: &[i32]) -> Vec<u8> {
    let mut body = vec![];
    for &cell in store {
        put_i32(&mut body, cell);
    }
    body
}
