//! Little-endian reading and writing, and the framing that program and session files share.

/// Takes numbers off the front of some bytes; None where too few are left.
pub struct Reader<'a> {
    rest: &'a [u8],
}

impl<'a> Reader<'a> {
    pub fn new(bytes: &'a [u8]) -> Reader<'a> {
        Reader { rest: bytes }
    }

    pub fn is_empty(&self) -> bool {
        self.rest.is_empty()
    }

    pub fn take(&mut self, count: usize) -> Option<&'a [u8]> {
        if count > self.rest.len() {
            return None;
        }
        let (taken, rest) = self.rest.split_at(count);
        self.rest = rest;
        Some(taken)
    }

    pub fn u8(&mut self) -> Option<u8> {
        Some(self.take(1)?[0])
    }

    pub fn u16(&mut self) -> Option<u16> {
        let b = self.take(2)?;
        Some(u16::from_le_bytes([b[0], b[1]]))
    }

    pub fn i32(&mut self) -> Option<i32> {
        let b = self.take(4)?;
        Some(i32::from_le_bytes([b[0], b[1], b[2], b[3]]))
    }

    /// One record: u16 length of the whole record, u16 kind, body. None where it is cut.
    pub fn framed(&mut self) -> Option<(u16, &'a [u8])> {
        let length = usize::from(self.u16()?);
        let kind = self.u16()?;
        let body = self.take(length.checked_sub(4)?)?;
        Some((kind, body))
    }
}

pub fn put_u16(out: &mut Vec<u8>, value: u16) {
    out.extend_from_slice(&value.to_le_bytes());
}

pub fn put_i32(out: &mut Vec<u8>, value: i32) {
    out.extend_from_slice(&value.to_le_bytes());
}

/// The body must leave the length within u16.
pub fn put_framed(out: &mut Vec<u8>, kind: u16, body: &[u8]) {
    let length = u16::try_from(body.len() + 4).expect("a record's length is a u16");
    put_u16(out, length);
    put_u16(out, kind);
    out.extend_from_slice(body);
}
