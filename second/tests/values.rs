//! Every operator against a second definition, at boundary operands.
#![forbid(unsafe_code)]

use second::generator::EDGES;
use second::number::Number;
use second::values::{apply, wrap, Operator};

type Exact = fn(i128, i128) -> i128;
type OfBits = fn(bool, bool) -> bool;

/// Every pair of boundary operands.
fn pairs() -> Vec<(i32, i32)> {
    let more = [5, -5, 12, 1 << 30, -(1 << 30), 46_341, -46_341];
    let operands: Vec<i32> = EDGES.into_iter().chain(more).collect();
    let with = |left: &i32| {
        operands
            .iter()
            .map(|right| (*left, *right))
            .collect::<Vec<_>>()
    };
    operands.iter().flat_map(with).collect()
}

fn value(operator: Operator, left: i32, right: i32) -> i32 {
    apply(operator, left, right).expect("no zero divisor")
}

#[test]
fn sums_differences_and_products_are_modulo_two_to_the_32() {
    let exact: [(Operator, Exact); 3] = [
        (Operator::Add, |l, r| l + r),
        (Operator::Subtract, |l, r| l - r),
        (Operator::Multiply, |l, r| l * r),
    ];
    for (operator, exactly) in exact {
        for (left, right) in pairs() {
            let found = i128::from(value(operator, left, right));
            let apart = found - exactly(left.into(), right.into());
            assert_eq!(apart % (1 << 32), 0, "{operator:?} {left} {right}");
        }
    }
}

#[test]
fn wrap_keeps_what_is_in_range_and_turns_at_its_ends() {
    for inside in [0, 1, -1, i32::MAX, i32::MIN] {
        assert_eq!(wrap(i64::from(inside)), inside);
    }
    assert_eq!(wrap(1 << 31), i32::MIN);
    assert_eq!(wrap(-(1 << 31) - 1), i32::MAX);
    assert_eq!(wrap(1 << 32), 0);
    assert_eq!(wrap(3 << 31), i32::MIN);
}

#[test]
fn bits_are_taken_one_by_one() {
    let by_bit: [(Operator, OfBits); 3] = [
        (Operator::Xor, |l, r| l != r),
        (Operator::And, |l, r| l && r),
        (Operator::Or, |l, r| l || r),
    ];
    for (operator, of_bits) in by_bit {
        for (left, right) in pairs() {
            let found = value(operator, left, right);
            for bit in 0..32 {
                let at = |value: i32| (value >> bit) % 2 != 0;
                let expected = of_bits(at(left), at(right));
                assert_eq!(at(found), expected, "{operator:?} {left} {right} bit {bit}");
            }
        }
    }
}

#[test]
fn comparisons_and_logic_give_0_or_1() {
    // The answers where left is below, equal to, above right.
    let compared = [
        (Operator::Less, [1, 0, 0]),
        (Operator::Greater, [0, 0, 1]),
        (Operator::Equal, [0, 1, 0]),
        (Operator::Unequal, [1, 0, 1]),
        (Operator::AtMost, [1, 1, 0]),
        (Operator::AtLeast, [0, 1, 1]),
    ];
    for (operator, answers) in compared {
        for (left, right) in pairs() {
            let order = (i64::from(left) - i64::from(right)).signum();
            let expected = answers[usize::try_from(order + 1).expect("0 to 2")];
            assert_eq!(
                value(operator, left, right),
                expected,
                "{operator:?} {left} {right}"
            );
        }
    }
    // The answers where left and right are 0 0, 0 5, -5 0, -5 5.
    let logic = [
        (Operator::Both, [0, 0, 0, 1]),
        (Operator::Either, [0, 1, 1, 1]),
    ];
    for (operator, answers) in logic {
        let operands = [(0, 0), (0, 5), (-5, 0), (-5, 5)];
        for ((left, right), expected) in operands.into_iter().zip(answers) {
            assert_eq!(
                value(operator, left, right),
                expected,
                "{operator:?} {left} {right}"
            );
        }
        assert_eq!(value(operator, i32::MIN, i32::MIN), 1);
    }
}

#[test]
fn the_remainder_is_what_the_exact_quotient_leaves() {
    for (left, right) in pairs().into_iter().filter(|(_, right)| *right != 0) {
        let quotient = i64::from(value(Operator::Divide, left, right));
        let remainder = i64::from(value(Operator::Remainder, left, right));
        let divisor = i64::from(right);
        // The one quotient that does not fit in a cell.
        let exact = if (left, right) == (i32::MIN, -1) {
            1 << 31
        } else {
            quotient
        };
        assert_eq!(
            exact * divisor + remainder,
            i64::from(left),
            "{left} {right}"
        );
        assert!(remainder.abs() < divisor.abs(), "{left} {right}");
        assert!(remainder * divisor >= 0, "{left} {right}");
    }
}

#[test]
fn a_zero_divisor_is_32_for_every_left_side() {
    for left in EDGES {
        assert_eq!(apply(Operator::Divide, left, 0), Err(Number::ZeroDivisor));
        assert_eq!(
            apply(Operator::Remainder, left, 0),
            Err(Number::ZeroDivisor)
        );
    }
}

#[test]
fn codes_follow_the_document_s_list() {
    // 7 and 2, by hand; the tests above tell apart the operators that agree here.
    let expected = [
        (0, 9),
        (1, 5),
        (2, 5),
        (3, 14),
        (4, 3),
        (5, 1),
        (6, 2),
        (7, 7),
        (8, 1),
        (9, 1),
        (10, 0),
        (11, 1),
        (12, 0),
        (13, 1),
        (14, 0),
        (15, 1),
    ];
    for (code, answer) in expected {
        let operator = Operator::from_code(code).expect("a code");
        assert_eq!(operator.code(), code);
        assert_eq!(value(operator, 7, 2), answer, "code {code}");
    }
    assert_eq!(Operator::from_code(16), None);
}
