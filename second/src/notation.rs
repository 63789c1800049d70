//! Janus notation, as in figure 1 of document 000, of a tree whose names are told beside it.

use crate::builder::{Node, Tree};
use crate::expression::Expression;
use crate::record::{Assignment, SetOperator, Target};
use crate::values::Operator;

/// What the numbers of a tree are called; main has no name.
#[derive(Clone, Copy, Debug)]
pub struct Called {
    pub scalars: &'static [&'static str],
    pub arrays: &'static [&'static str],
    /// From procedure 1 on.
    pub procedures: &'static [&'static str],
}

impl Called {
    /// Main's statements, then each procedure after an empty line.
    pub fn program(&self, tree: &Tree) -> String {
        let (main, others) = tree.procedures.split_first().expect("main");
        let mut lines = self.row(main, "");
        for (body, name) in others.iter().zip(self.procedures) {
            lines.push(String::new());
            lines.push(format!("procedure {name}"));
            lines.extend(self.row(body, "  "));
        }
        lines.into_iter().map(|line| line + "\n").collect()
    }

    fn row(&self, row: &[Node], margin: &str) -> Vec<String> {
        let mut lines = vec![];
        for node in row {
            lines.extend(self.statement(node, margin));
        }
        lines
    }

    fn statement(&self, node: &Node, margin: &str) -> Vec<String> {
        match node {
            Node::Set(assignment) => vec![format!("{margin}{}", self.assignment(assignment))],
            Node::Call(number) => vec![format!("{margin}call {}", self.procedure(*number))],
            Node::Uncall(number) => vec![format!("{margin}uncall {}", self.procedure(*number))],
            Node::Skip => vec![format!("{margin}skip")],
            Node::If(test, first, second, assertion) => {
                let words = ["if", " then", "else", "fi"];
                self.construct(words, (test, assertion), (first, second), margin)
            }
            Node::From(assertion, first, second, test) => {
                let words = ["from", " do", "loop", "until"];
                self.construct(words, (assertion, test), (first, second), margin)
            }
        }
    }

    fn construct(
        &self,
        [open, then, between, close]: [&str; 4],
        (first_value, last_value): (&Expression, &Expression),
        (first, second): (&[Node], &[Node]),
        margin: &str,
    ) -> Vec<String> {
        let within = format!("{margin}  ");
        let mut lines = vec![format!("{margin}{open} {}{then}", self.value(first_value))];
        lines.extend(self.row(first, &within));
        lines.push(format!("{margin}{between}"));
        lines.extend(self.row(second, &within));
        lines.push(format!("{margin}{close} {}", self.value(last_value)));
        lines
    }

    fn assignment(&self, assignment: &Assignment) -> String {
        let target = match &assignment.target {
            Target::Scalar(number) => self.scalar(*number).to_string(),
            Target::Array(number, index) => self.cell(*number, index),
        };
        let operator = match assignment.operator {
            SetOperator::Plus => "+=",
            SetOperator::Minus => "-=",
            SetOperator::Xor => "^=",
        };
        format!("{target} {operator} {}", self.value(&assignment.expression))
    }

    fn value(&self, expression: &Expression) -> String {
        match expression {
            Expression::Constant(value) => value.to_string(),
            Expression::Scalar(number) => self.scalar(*number).to_string(),
            Expression::Array(number, index) => self.cell(*number, index),
            Expression::Binary(operator, left, right) => {
                let (left, right) = (self.operand(left), self.operand(right));
                format!("{left} {} {right}", spelled(*operator))
            }
        }
    }

    /// Parentheses wherever an operator stands within another, so that no precedence is needed.
    fn operand(&self, expression: &Expression) -> String {
        match expression {
            Expression::Binary(..) => format!("({})", self.value(expression)),
            _ => self.value(expression),
        }
    }

    fn cell(&self, array: u16, index: &Expression) -> String {
        format!("{}[{}]", self.arrays[usize::from(array)], self.value(index))
    }

    fn scalar(&self, number: u16) -> &str {
        self.scalars[usize::from(number)]
    }

    fn procedure(&self, number: u16) -> &str {
        self.procedures[usize::from(number) - 1]
    }
}

fn spelled(operator: Operator) -> &'static str {
    const WORDS: [&str; 16] = [
        "+", "-", "^", "*", "/", "%", "&", "|", "&&", "||", "<", ">", "=", "!=", "<=", ">=",
    ];
    WORDS[usize::from(operator.code())]
}
