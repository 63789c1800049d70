//! How often the generated cases met each number, operator and kind of move.

use crate::number::Number;
use crate::record::SetOperator;
use crate::values::Operator;
use std::collections::BTreeMap;
use std::fmt;

#[derive(Default)]
pub struct Tally {
    counts: BTreeMap<String, u64>,
}

pub const ACCEPTED: &str = "number 0";

/// Moves that the generated programs must make, each met by a step that arrives.
pub const MOVES: [&str; 14] = [
    "arrived down",
    "arrived up",
    "calls met down",
    "calls met up",
    "uncalls met down",
    "uncalls met up",
    "loops gone round down",
    "loops gone round up",
    "loops left down",
    "loops left up",
    "16 constructs open",
    "64 calls open",
    "64 calls and back to the beginning",
    "1,104 frames",
];

impl Tally {
    pub fn note(&mut self, what: &str) {
        *self.counts.entry(what.to_string()).or_insert(0) += 1;
    }

    pub fn note_number(&mut self, number: Number) {
        self.note(&number_key(number));
    }

    pub fn note_operator(&mut self, operator: Operator) {
        self.note(&operator_key(operator));
    }

    pub fn note_set(&mut self, operator: SetOperator, way: &str) {
        self.note(&set_key(operator, way));
    }

    /// What every long enough run of the generator must have met.
    fn wanted() -> Vec<String> {
        let mut keys = vec![ACCEPTED.to_string()];
        keys.extend(Number::ALL.map(number_key));
        keys.extend(Operator::ALL.map(operator_key));
        for way in ["down", "up"] {
            keys.extend(SetOperator::ALL.map(|operator| set_key(operator, way)));
        }
        keys.extend(MOVES.map(str::to_string));
        keys
    }

    pub fn missing(&self) -> Vec<String> {
        let never = |key: &String| !self.counts.contains_key(key);
        Tally::wanted().into_iter().filter(never).collect()
    }
}

fn number_key(number: Number) -> String {
    format!("number {}", number.value())
}

fn operator_key(operator: Operator) -> String {
    format!("operator {}", operator.code())
}

fn set_key(operator: SetOperator, way: &str) -> String {
    format!("set {} {way}", operator.code())
}

impl fmt::Display for Tally {
    fn fmt(&self, out: &mut fmt::Formatter<'_>) -> fmt::Result {
        for key in Tally::wanted() {
            let count = self.counts.get(&key).copied().unwrap_or(0);
            writeln!(out, "{key}: {count}")?;
        }
        Ok(())
    }
}
