//! One record of a program file, read from its kind and body.

use crate::bytes::{put_framed, put_u16, Reader};
use crate::expression::{Expression, Name};
use crate::names::Names;
use crate::values::Operator;

#[derive(Clone, Copy, Debug, PartialEq, Eq)]
pub enum SetOperator {
    Plus,
    Minus,
    Xor,
}

impl SetOperator {
    /// In the order of their codes, 0 to 2.
    pub const ALL: [SetOperator; 3] = [SetOperator::Plus, SetOperator::Minus, SetOperator::Xor];

    pub fn code(self) -> u8 {
        self as u8
    }

    pub fn opposite(self) -> SetOperator {
        match self {
            SetOperator::Plus => SetOperator::Minus,
            SetOperator::Minus => SetOperator::Plus,
            SetOperator::Xor => SetOperator::Xor,
        }
    }

    pub fn operator(self) -> Operator {
        match self {
            SetOperator::Plus => Operator::Add,
            SetOperator::Minus => Operator::Subtract,
            SetOperator::Xor => Operator::Xor,
        }
    }
}

#[derive(Clone, Debug, PartialEq, Eq)]
pub enum Target {
    Scalar(u16),
    Array(u16, Expression),
}

impl Target {
    pub fn name(&self) -> Name {
        match self {
            Target::Scalar(scalar) => Name::Scalar(*scalar),
            Target::Array(array, _) => Name::Array(*array),
        }
    }
}

#[derive(Clone, Debug, PartialEq, Eq)]
pub struct Assignment {
    pub operator: SetOperator,
    pub target: Target,
    pub expression: Expression,
}

#[derive(Clone, Debug, PartialEq, Eq)]
pub enum Record {
    Names(Names),
    Begin,
    End,
    Set(Assignment),
    If(Expression),
    Else,
    Fi(Expression),
    From(Expression),
    Loop,
    Until(Expression),
    Call(u16),
    Uncall(u16),
    Skip,
}

pub fn is_known(kind: u16) -> bool {
    (1..=13).contains(&kind)
}

impl Record {
    /// None where the body is malformed for its kind.
    pub fn parse(kind: u16, body: &[u8]) -> Option<Record> {
        let mut reader = Reader::new(body);
        let record = Record::parse_body(kind, &mut reader)?;
        reader.is_empty().then_some(record)
    }

    fn parse_body(kind: u16, reader: &mut Reader) -> Option<Record> {
        Some(match kind {
            1 => Record::Names(parse_names(reader)?),
            2 => Record::Begin,
            3 => Record::End,
            4 => Record::Set(parse_assignment(reader)?),
            5 => Record::If(Expression::parse(reader)?),
            6 => Record::Else,
            7 => Record::Fi(Expression::parse(reader)?),
            8 => Record::From(Expression::parse(reader)?),
            9 => Record::Loop,
            10 => Record::Until(Expression::parse(reader)?),
            11 => Record::Call(reader.u16()?),
            12 => Record::Uncall(reader.u16()?),
            13 => Record::Skip,
            _ => return None,
        })
    }

    pub fn kind(&self) -> u16 {
        match self {
            Record::Names(_) => 1,
            Record::Begin => 2,
            Record::End => 3,
            Record::Set(_) => 4,
            Record::If(_) => 5,
            Record::Else => 6,
            Record::Fi(_) => 7,
            Record::From(_) => 8,
            Record::Loop => 9,
            Record::Until(_) => 10,
            Record::Call(_) => 11,
            Record::Uncall(_) => 12,
            Record::Skip => 13,
        }
    }

    /// The record as it stands in a file, length and kind included.
    pub fn encode(&self, out: &mut Vec<u8>) {
        put_framed(out, self.kind(), &self.body());
    }

    fn body(&self) -> Vec<u8> {
        let mut body = vec![];
        match self {
            Record::Names(names) => encode_names(names, &mut body),
            Record::Set(assignment) => encode_assignment(assignment, &mut body),
            Record::If(e) | Record::Fi(e) | Record::From(e) | Record::Until(e) => {
                e.encode(&mut body)
            }
            Record::Call(procedure) | Record::Uncall(procedure) => put_u16(&mut body, *procedure),
            Record::Begin | Record::End | Record::Else | Record::Loop | Record::Skip => {}
        }
        body
    }

    /// The record's expressions in order of evaluation: an array target's index comes first.
    pub fn expressions(&self) -> Vec<&Expression> {
        match self {
            Record::Set(assignment) => assignment.expressions(),
            Record::If(e) | Record::Fi(e) | Record::From(e) | Record::Until(e) => vec![e],
            _ => vec![],
        }
    }
}

impl Assignment {
    pub fn expressions(&self) -> Vec<&Expression> {
        match &self.target {
            Target::Scalar(_) => vec![&self.expression],
            Target::Array(_, index) => vec![index, &self.expression],
        }
    }

    /// Number 8: the assigned scalar or array occurs in the SET's own expressions.
    pub fn mentions_its_target(&self) -> bool {
        let target = self.target.name();
        self.expressions()
            .iter()
            .any(|expression| expression.names().contains(&target))
    }
}

fn parse_names(reader: &mut Reader) -> Option<Names> {
    let scalars = reader.u16()?;
    let arrays = reader.u16()?;
    let lengths = (0..arrays).map(|_| reader.u16()).collect::<Option<_>>()?;
    Some(Names { scalars, lengths })
}

fn encode_names(names: &Names, body: &mut Vec<u8>) {
    put_u16(body, names.scalars);
    let arrays = u16::try_from(names.lengths.len()).expect("the count of arrays is a u16");
    put_u16(body, arrays);
    for &length in &names.lengths {
        put_u16(body, length);
    }
}

fn parse_assignment(reader: &mut Reader) -> Option<Assignment> {
    let operator = *SetOperator::ALL.get(usize::from(reader.u8()?))?;
    let target_kind = reader.u8()?;
    let number = reader.u16()?;
    let target = match target_kind {
        0 => Target::Scalar(number),
        1 => Target::Array(number, Expression::parse(reader)?),
        _ => return None,
    };
    let expression = Expression::parse(reader)?;
    Some(Assignment {
        operator,
        target,
        expression,
    })
}

fn encode_assignment(assignment: &Assignment, body: &mut Vec<u8>) {
    body.push(assignment.operator.code());
    match &assignment.target {
        Target::Scalar(scalar) => {
            body.push(0);
            put_u16(body, *scalar);
        }
        Target::Array(array, index) => {
            body.push(1);
            put_u16(body, *array);
            index.encode(body);
        }
    }
    assignment.expression.encode(body);
}
