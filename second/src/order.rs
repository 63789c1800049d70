//! Number 6: NAMES, then one or more BEGIN s END; at most 16 IF and FROM open at once.

use crate::number::{Number, Refusal};
use crate::record::Record;

pub const MAX_OPEN: usize = 16;

/// What a row of statements stands in, until the record that ends the row.
#[derive(Clone, Copy, PartialEq, Eq)]
enum Row {
    Procedure,
    IfTrue,
    IfFalse,
    FromFirst,
    FromSecond,
}

/// All that decides which record may come next.
#[derive(Default)]
struct Order {
    named: bool,
    procedures: usize,
    /// Rows begun and not ended, the innermost last.
    rows: Vec<Row>,
    /// Whether the innermost row still waits for its first statement.
    bare: bool,
}

/// Any state that `follow` has reached can be completed: SKIP fills a bare row, closers end it.
pub fn check_order(records: &[Record]) -> Result<(), Refusal> {
    let mut order = Order::default();
    for (label, record) in records.iter().enumerate() {
        if !order.follow(record) {
            return Err(Refusal::at(Number::Order, label));
        }
    }
    if !order.is_complete() {
        return Err(Refusal::at(Number::Order, records.len()));
    }
    Ok(())
}

impl Order {
    fn is_complete(&self) -> bool {
        self.procedures > 0 && self.rows.is_empty()
    }

    /// False where no order of further records is valid after this one.
    fn follow(&mut self, record: &Record) -> bool {
        match record {
            Record::Names(_) => self.names(),
            Record::Begin => self.begin(),
            Record::End => self.end_row(Row::Procedure),
            Record::Set(_) | Record::Call(_) | Record::Uncall(_) | Record::Skip => self.statement(),
            Record::If(_) => self.open(Row::IfTrue),
            Record::Else => self.turn(Row::IfTrue, Row::IfFalse),
            Record::Fi(_) => self.end_row(Row::IfFalse),
            Record::From(_) => self.open(Row::FromFirst),
            Record::Loop => self.turn(Row::FromFirst, Row::FromSecond),
            Record::Until(_) => self.end_row(Row::FromSecond),
        }
    }

    fn names(&mut self) -> bool {
        let first = !self.named;
        self.named = true;
        first
    }

    fn begin(&mut self) -> bool {
        let allowed = self.named && self.rows.is_empty();
        self.rows.push(Row::Procedure);
        self.procedures += 1;
        self.bare = true;
        allowed
    }

    fn statement(&mut self) -> bool {
        self.bare = false;
        !self.rows.is_empty()
    }

    fn open(&mut self, row: Row) -> bool {
        let allowed = !self.rows.is_empty() && self.rows.len() - 1 < MAX_OPEN;
        self.rows.push(row);
        self.bare = true;
        allowed
    }

    fn ends(&self, row: Row) -> bool {
        self.rows.last() == Some(&row) && !self.bare
    }

    fn turn(&mut self, row: Row, next: Row) -> bool {
        let allowed = self.ends(row);
        self.rows.pop();
        self.rows.push(next);
        self.bare = true;
        allowed
    }

    // What has ended is a statement of the row outside, which is bare no longer.
    fn end_row(&mut self, row: Row) -> bool {
        let allowed = self.ends(row);
        self.rows.pop();
        allowed
    }
}
