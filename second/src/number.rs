//! The numbers that the bench gives, and a refusal that carries one.

use std::fmt;

/// Document 01, 'Numbers the bench gives'.
#[derive(Clone, Copy, Debug, PartialEq, Eq, PartialOrd, Ord)]
pub enum Number {
    FileTooLong = 1,
    RecordCut = 2,
    UnknownKind = 3,
    BodyMalformed = 4,
    SizeExceeded = 5,
    Order = 6,
    NumberNotThere = 7,
    OwnName = 8,
    StoreLength = 20,
    PlaceDoesNotFit = 21,
    SessionMalformed = 22,
    BufferTooShort = 23,
    End = 30,
    WrongValue = 31,
    ZeroDivisor = 32,
    Index = 33,
    Calls = 34,
}

impl Number {
    pub const ALL: [Number; 17] = [
        Number::FileTooLong,
        Number::RecordCut,
        Number::UnknownKind,
        Number::BodyMalformed,
        Number::SizeExceeded,
        Number::Order,
        Number::NumberNotThere,
        Number::OwnName,
        Number::StoreLength,
        Number::PlaceDoesNotFit,
        Number::SessionMalformed,
        Number::BufferTooShort,
        Number::End,
        Number::WrongValue,
        Number::ZeroDivisor,
        Number::Index,
        Number::Calls,
    ];

    pub fn value(self) -> u8 {
        self as u8
    }
}

/// A number and, for 1 to 8 alone, the first record at fault.
#[derive(Clone, Copy, Debug, PartialEq, Eq)]
pub struct Refusal {
    pub number: Number,
    pub record: Option<usize>,
}

impl Refusal {
    pub fn at(number: Number, record: usize) -> Refusal {
        Refusal {
            number,
            record: Some(record),
        }
    }

    pub fn plain(number: Number) -> Refusal {
        Refusal {
            number,
            record: None,
        }
    }
}

impl fmt::Display for Refusal {
    fn fmt(&self, out: &mut fmt::Formatter<'_>) -> fmt::Result {
        match self.record {
            Some(record) => write!(out, "refused {} record {}", self.number.value(), record),
            None => write!(out, "refused {}", self.number.value()),
        }
    }
}
