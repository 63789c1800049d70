//! A checked program: its records, its statement trees, and the edges that the trees give.

use crate::names::Names;
use crate::place::{Direction, Frame};
use crate::record::Record;
use std::collections::BTreeMap;

/// A statement by the labels of its records.
#[derive(Clone, Debug, PartialEq, Eq)]
pub enum Statement {
    /// SET, CALL, UNCALL or SKIP.
    Plain(u16),
    If(Construct),
    From(Construct),
}

/// IF s1 ELSE s2 FI, or FROM s1 LOOP s2 UNTIL.
#[derive(Clone, Debug, PartialEq, Eq)]
pub struct Construct {
    pub opener: u16,
    pub first: Vec<Statement>,
    pub second: Vec<Statement>,
    pub closer: u16,
}

impl Statement {
    pub fn entry(&self) -> u16 {
        match self {
            Statement::Plain(label) => *label,
            Statement::If(construct) | Statement::From(construct) => construct.opener,
        }
    }

    pub fn exit(&self) -> u16 {
        match self {
            Statement::Plain(label) => *label,
            Statement::If(construct) | Statement::From(construct) => construct.closer,
        }
    }
}

#[derive(Clone, Debug, PartialEq, Eq)]
pub struct Procedure {
    pub begin: u16,
    pub body: Vec<Statement>,
    pub end: u16,
}

/// Where an edge or a calling record lies: its procedure and the constructs round it.
#[derive(Clone, Debug, PartialEq, Eq)]
pub struct Inside {
    pub procedure: u16,
    /// Innermost first.
    pub constructs: Vec<Frame>,
}

/// A downward edge; the upward one is this reversed.
#[derive(Clone, Debug, PartialEq, Eq)]
pub struct Edge {
    pub from: u16,
    pub to: u16,
    pub inside: Inside,
}

#[derive(Clone, Debug)]
pub struct Program {
    pub records: Vec<Record>,
    pub names: Names,
    pub procedures: Vec<Procedure>,
    pub edges: Vec<Edge>,
    /// For each FI its IF, for each UNTIL its FROM.
    openers: BTreeMap<u16, u16>,
    /// For each CALL and UNCALL where it lies.
    callers: BTreeMap<u16, Inside>,
    /// For each label the edges (as numbers into `edges`) that leave it downwards, upwards.
    leaving_down: Vec<Vec<usize>>,
    leaving_up: Vec<Vec<usize>>,
}

impl Program {
    /// The records have passed the check.
    pub fn new(records: Vec<Record>) -> Program {
        let names = match &records[0] {
            Record::Names(names) => names.clone(),
            _ => unreachable!("the order has been checked"),
        };
        let labels = records.len();
        let mut program = Program {
            procedures: Trees::new(&records).procedures(),
            records,
            names,
            edges: vec![],
            openers: BTreeMap::new(),
            callers: BTreeMap::new(),
            leaving_down: vec![vec![]; labels],
            leaving_up: vec![vec![]; labels],
        };
        program.find_edges();
        program
    }

    pub fn cells(&self) -> usize {
        self.names.cells()
    }

    pub fn record(&self, label: u16) -> &Record {
        &self.records[usize::from(label)]
    }

    pub fn procedure(&self, number: u16) -> &Procedure {
        &self.procedures[usize::from(number)]
    }

    /// The procedure that a CALL or UNCALL names; None for any other label.
    pub fn callee(&self, label: u16) -> Option<u16> {
        match self.records.get(usize::from(label)) {
            Some(Record::Call(callee)) | Some(Record::Uncall(callee)) => Some(*callee),
            _ => None,
        }
    }

    /// Where a CALL or UNCALL lies; None for any other label.
    pub fn caller(&self, label: u16) -> Option<&Inside> {
        self.callers.get(&label)
    }

    pub fn calling_labels(&self) -> Vec<u16> {
        self.callers.keys().copied().collect()
    }

    /// The IF of an IF or FI, the FROM of a FROM or UNTIL.
    pub fn opener(&self, label: u16) -> u16 {
        self.openers.get(&label).copied().unwrap_or(label)
    }

    /// The edges that leave a label in a direction, each with the label that it leads to.
    pub fn leaving(&self, label: u16, direction: Direction) -> Vec<(u16, &Inside)> {
        let lists = match direction {
            Direction::Down => &self.leaving_down,
            Direction::Up => &self.leaving_up,
        };
        let Some(list) = lists.get(usize::from(label)) else {
            return vec![];
        };
        let led_to = |edge: &Edge| match direction {
            Direction::Down => edge.to,
            Direction::Up => edge.from,
        };
        list.iter()
            .map(|&number| &self.edges[number])
            .map(|edge| (led_to(edge), &edge.inside))
            .collect()
    }

    /// Where the edge (a, b) of a direction lies; None where there is no such edge.
    pub fn edge(&self, a: u16, b: u16, direction: Direction) -> Option<&Inside> {
        self.leaving(a, direction)
            .into_iter()
            .find(|(to, _)| *to == b)
            .map(|(_, inside)| inside)
    }

    fn find_edges(&mut self) {
        let procedures = self.procedures.clone();
        for (number, procedure) in procedures.iter().enumerate() {
            let inside = Inside {
                procedure: u16::try_from(number).expect("at most 64 procedures"),
                constructs: vec![],
            };
            self.flow(&procedure.body, procedure.begin, procedure.end, &inside);
        }
    }

    /// The edges of a row of statements that is come to from `before` and left to `after`.
    fn flow(&mut self, row: &[Statement], before: u16, after: u16, inside: &Inside) {
        let mut from = before;
        for statement in row {
            self.add_edge(from, statement.entry(), inside);
            self.flow_within(statement, inside);
            from = statement.exit();
        }
        self.add_edge(from, after, inside);
    }

    fn flow_within(&mut self, statement: &Statement, inside: &Inside) {
        match statement {
            Statement::Plain(label) => self.note_caller(*label, inside),
            Statement::If(c) => {
                self.openers.insert(c.closer, c.opener);
                let branch = |kind| inside.within(Frame::new(kind, c.opener));
                self.flow(&c.first, c.opener, c.closer, &branch(Frame::TRUE));
                self.flow(&c.second, c.opener, c.closer, &branch(Frame::FALSE));
            }
            Statement::From(c) => {
                self.openers.insert(c.closer, c.opener);
                let part = |kind| inside.within(Frame::new(kind, c.opener));
                self.flow(&c.first, c.opener, c.closer, &part(Frame::FIRST));
                self.flow(&c.second, c.closer, c.opener, &part(Frame::SECOND));
            }
        }
    }

    fn note_caller(&mut self, label: u16, inside: &Inside) {
        if self.callee(label).is_some() {
            self.callers.insert(label, inside.clone());
        }
    }

    fn add_edge(&mut self, from: u16, to: u16, inside: &Inside) {
        let number = self.edges.len();
        self.leaving_down[usize::from(from)].push(number);
        self.leaving_up[usize::from(to)].push(number);
        self.edges.push(Edge {
            from,
            to,
            inside: inside.clone(),
        });
    }
}

impl Inside {
    fn within(&self, frame: Frame) -> Inside {
        let mut constructs = vec![frame];
        constructs.extend(&self.constructs);
        Inside {
            procedure: self.procedure,
            constructs,
        }
    }
}

/// Reads statement trees off records whose order has been checked.
struct Trees<'a> {
    records: &'a [Record],
    next: usize,
}

impl<'a> Trees<'a> {
    fn new(records: &'a [Record]) -> Trees<'a> {
        Trees { records, next: 0 }
    }

    fn take(&mut self) -> u16 {
        let label = u16::try_from(self.next).expect("at most 1,024 records");
        self.next += 1;
        label
    }

    fn procedures(mut self) -> Vec<Procedure> {
        let _names = self.take();
        let mut found = vec![];
        while self.next < self.records.len() {
            found.push(Procedure {
                begin: self.take(),
                body: self.row(),
                end: self.take(),
            });
        }
        found
    }

    /// Statements up to the END, ELSE, FI, LOOP or UNTIL that ends their row.
    fn row(&mut self) -> Vec<Statement> {
        let mut row = vec![];
        while let Some(statement) = self.statement() {
            row.push(statement);
        }
        row
    }

    fn statement(&mut self) -> Option<Statement> {
        match self.records[self.next] {
            Record::Set(_) | Record::Call(_) | Record::Uncall(_) | Record::Skip => {
                Some(Statement::Plain(self.take()))
            }
            Record::If(_) => Some(Statement::If(self.construct())),
            Record::From(_) => Some(Statement::From(self.construct())),
            _ => None,
        }
    }

    fn construct(&mut self) -> Construct {
        let opener = self.take();
        let first = self.row();
        let _else_or_loop = self.take();
        let second = self.row();
        let closer = self.take();
        Construct {
            opener,
            first,
            second,
            closer,
        }
    }
}
