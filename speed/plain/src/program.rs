//! A program file decoded.

use crate::expression::{Expression, Operator, OPERATORS};

pub enum Record {
    Names,
    Begin,
    End,
    Set(Operator, Target, Expression),
    If(Expression),
    Else,
    Fi(Expression),
    From(Expression),
    Loop,
    Until(Expression),
    Call(usize),
    Uncall(usize),
    Skip,
}

pub enum Target {
    Scalar(usize),
    Entry(usize, Expression),
}

#[derive(Default)]
pub struct Program {
    pub scalars: usize,
    pub lengths: Vec<usize>,
    pub records: Vec<Record>,
    /// By label: for a part of a construct the labels of IF, ELSE and FI, or of FROM, LOOP and UNTIL.
    pub constructs: Vec<[usize; 3]>,
    /// The labels of BEGIN and END.
    pub procedures: Vec<(usize, usize)>,
}

impl Program {
    pub fn decode(file: &[u8]) -> Program {
        let mut program = Program::default();
        let mut reader = Reader(file);
        while !reader.0.is_empty() {
            let record = program.record(&mut reader);
            program.records.push(record);
        }
        program.link();
        program
    }

    fn record(&mut self, reader: &mut Reader) -> Record {
        let _length = reader.u16();
        match reader.u16() {
            1 => {
                self.scalars = reader.u16();
                self.lengths = (0..reader.u16()).map(|_| reader.u16()).collect();
                Record::Names
            }
            2 => Record::Begin,
            3 => Record::End,
            4 => {
                let operator = OPERATORS[reader.u8()];
                let target = match (reader.u8(), reader.u16()) {
                    (0, number) => Target::Scalar(number),
                    (_, number) => Target::Entry(number, reader.expression()),
                };
                Record::Set(operator, target, reader.expression())
            }
            5 => Record::If(reader.expression()),
            6 => Record::Else,
            7 => Record::Fi(reader.expression()),
            8 => Record::From(reader.expression()),
            9 => Record::Loop,
            10 => Record::Until(reader.expression()),
            11 => Record::Call(reader.u16()),
            12 => Record::Uncall(reader.u16()),
            _ => Record::Skip,
        }
    }

    /// Finds the procedures and the constructs.
    fn link(&mut self) {
        self.constructs = vec![[0; 3]; self.records.len()];
        let mut open = vec![];
        for (label, record) in self.records.iter().enumerate() {
            match record {
                Record::Begin | Record::If(_) | Record::From(_) => open.push([label, 0]),
                Record::Else | Record::Loop => open.last_mut().expect("a head")[1] = label,
                Record::Fi(_) | Record::Until(_) => {
                    let [head, middle] = open.pop().expect("a head");
                    for part in [head, middle, label] {
                        self.constructs[part] = [head, middle, label];
                    }
                }
                Record::End => self
                    .procedures
                    .push((open.pop().expect("a head")[0], label)),
                _ => {}
            }
        }
    }
}

/// The bytes not yet read.
struct Reader<'a>(&'a [u8]);

impl Reader<'_> {
    fn bytes<const N: usize>(&mut self) -> [u8; N] {
        let (bytes, rest) = self.0.split_first_chunk().expect("more bytes");
        self.0 = rest;
        *bytes
    }

    fn u8(&mut self) -> usize {
        usize::from(u8::from_le_bytes(self.bytes()))
    }

    fn u16(&mut self) -> usize {
        usize::from(u16::from_le_bytes(self.bytes()))
    }

    fn expression(&mut self) -> Expression {
        match self.u8() {
            0 => Expression::Constant(i32::from_le_bytes(self.bytes())),
            1 => Expression::Scalar(self.u16()),
            2 => Expression::Entry(self.u16(), self.boxed()),
            _ => Expression::Binary(OPERATORS[self.u8()], self.boxed(), self.boxed()),
        }
    }

    fn boxed(&mut self) -> Box<Expression> {
        Box::new(self.expression())
    }
}
