//! Document 01's 'Lines to check' and 'Where the old stepper went astray'.
#![forbid(unsafe_code)]

mod common;

use common::{lent, Bench};
use second::builder::*;
use second::cases::nested;
use second::number::Number;
use second::place::Direction;
use second::values::{apply, Operator};
use second::vectors::check_answer;

fn value(operator: Operator, left: i32, right: i32) -> i32 {
    apply(operator, left, right).expect("no zero divisor")
}

#[test]
fn value_lines() {
    assert_eq!(value(Operator::Divide, -7, 2), -4);
    assert_eq!(value(Operator::Remainder, -7, 2), 1);
    assert_eq!(value(Operator::Divide, 7, -2), -4);
    assert_eq!(value(Operator::Remainder, 7, -2), -1);
    assert_eq!(value(Operator::Add, 2147483647, 1), -2147483648);
    assert_eq!(value(Operator::Multiply, 65536, 65536), 0);
    assert_eq!(value(Operator::Xor, -8, 3), -5);
}

#[test]
fn quotient_of_the_least_value_by_minus_one_wraps() {
    assert_eq!(value(Operator::Divide, i32::MIN, -1), i32::MIN);
    assert_eq!(value(Operator::Remainder, i32::MIN, -1), 0);
}

#[test]
fn zero_divisor_in_both_operators_and_no_other() {
    for operator in Operator::ALL {
        let expected = matches!(operator, Operator::Divide | Operator::Remainder);
        let found = apply(operator, 5, 0) == Err(Number::ZeroDivisor);
        assert_eq!(found, expected, "{operator:?}");
    }
}

fn if_on(test: second::expression::Expression) -> Tree {
    let body = vec![Node::If(
        test,
        vec![Node::Skip],
        vec![Node::Skip],
        constant(1),
    )];
    tree(2, &[1024], vec![body])
}

#[test]
fn and_does_not_stop_at_a_false_left_side() {
    let divided = binary(Operator::Divide, constant(1), constant(0));
    let both = binary(Operator::Both, constant(0), divided.clone());
    assert_eq!(Bench::down(&if_on(both)).step(), 32);
    let either = binary(Operator::Either, constant(1), divided);
    assert_eq!(Bench::down(&if_on(either)).step(), 32);
}

#[test]
fn file_lines() {
    assert_eq!(check_answer(&[]), "refused 6 0");
    let bare = encode(&[
        names(0, &[]),
        second::record::Record::Begin,
        second::record::Record::End,
    ]);
    assert_eq!(check_answer(&bare), "refused 6 2");
    let own = tree(1, &[], vec![vec![plus(0, scalar(0))]]);
    assert_eq!(check_answer(&own.encode()), "refused 8 2");
    let at = tree(1, &[1], vec![vec![plus_at(0, scalar(0), constant(1))]]);
    assert_eq!(check_answer(&at.encode()), "accepted 4 1 2");
}

#[test]
fn sixteen_open_constructs_pass_and_seventeen_are_6() {
    let of = |open| tree(0, &[], vec![vec![nested(open, Node::Skip)]]).encode();
    assert_eq!(check_answer(&of(16)), "accepted 68 1 0");
    assert_eq!(check_answer(&of(17)), "refused 6 18");
}

#[test]
fn sixty_four_calls_there_and_back() {
    let main = vec![Node::Call(1)];
    let mut bench = Bench::down(&tree(0, &[], vec![main.clone(), main]));
    let start = bench.at();
    assert_eq!(bench.run(64), (64, 0));
    let deepest = bench.at();
    assert_eq!(bench.step(), 34);
    assert_eq!(bench.at(), deepest);
    assert_eq!(bench.run(100), (0, 34));
    assert_eq!(bench.run_back(64), (64, 0));
    assert_eq!(bench.at(), start);
    assert_eq!(bench.back(), 30);
    assert_eq!(bench.at(), start);
}

#[test]
fn index_at_its_bounds() {
    let reads = |index| if_on(array(0, constant(index)));
    assert_eq!(Bench::down(&reads(1023)).step(), 0);
    assert_eq!(Bench::down(&reads(1024)).step(), 33);
    assert_eq!(Bench::down(&reads(-1)).step(), 33);
    let sets = |index| {
        let body = vec![plus_at(0, constant(index), constant(1))];
        tree(2, &[1024], vec![body])
    };
    assert_eq!(Bench::down(&sets(1023)).step(), 0);
    assert_eq!(Bench::down(&sets(1024)).step(), 33);
    assert_eq!(Bench::down(&sets(-1)).step(), 33);
    assert_eq!(Bench::down(&sets(i32::MIN)).step(), 33);
}

#[test]
fn example_is_76_bytes_and_walks_as_told() {
    assert_eq!(example().encode().len(), 76);
    let mut bench = Bench::down(&example());
    let walk = [
        "2 3 down",
        "3 4 down 2:3",
        "4 7 down 2:3",
        "7 6 down 3:3",
        "6 3 down 3:3",
        "3 4 down 2:3",
        "4 7 down 2:3",
        "7 6 down 3:3",
        "6 3 down 3:3",
        "3 4 down 2:3",
        "4 7 down 2:3",
        "7 8 down",
        "30",
    ];
    assert_eq!(bench.walk(), walk);
    assert_eq!(bench.store, [3, 3]);
    assert_eq!(bench.run_back(1_000_000), (12, 30));
    assert_eq!(bench.at(), "1 2 down");
    assert_eq!(bench.store, [0, 0]);
}

#[test]
fn scalar_0_and_array_0_are_two_names() {
    let read = tree(1, &[1], vec![vec![plus(0, array(0, constant(0)))]]);
    assert_eq!(check_answer(&read.encode()), "accepted 4 1 2");
    let set = tree(1, &[1], vec![vec![plus_at(0, constant(0), scalar(0))]]);
    assert_eq!(check_answer(&set.encode()), "accepted 4 1 2");
}

fn uncalling() -> Tree {
    tree(
        1,
        &[],
        vec![vec![Node::Uncall(1)], vec![plus(0, constant(5))]],
    )
}

#[test]
fn an_uncall_met_upwards_runs_down() {
    let mut bench = Bench::up(&uncalling());
    assert_eq!(bench.at(), "3 2 up");
    let walk = ["4 5 down 4:2", "5 6 down 4:2", "2 1 up", "30"];
    assert_eq!(bench.walk(), walk);
    assert_eq!(bench.store, [5]);
}

#[test]
fn an_uncall_met_downwards_runs_up() {
    let mut bench = Bench::down(&uncalling());
    let walk = ["6 5 up 4:2", "5 4 up 4:2", "2 3 down", "30"];
    assert_eq!(bench.walk(), walk);
    assert_eq!(bench.store, [-5]);
}

#[test]
fn a_call_keeps_the_direction_both_ways() {
    let calling = tree(
        1,
        &[],
        vec![vec![Node::Call(1)], vec![plus(0, constant(5))]],
    );
    let mut bench = Bench::down(&calling);
    let walk = ["4 5 down 4:2", "5 6 down 4:2", "2 3 down", "30"];
    assert_eq!(bench.walk(), walk);
    assert_eq!(bench.store, [5]);
    let mut bench = Bench::up(&calling);
    let walk = ["6 5 up 4:2", "5 4 up 4:2", "2 1 up", "30"];
    assert_eq!(bench.walk(), walk);
    assert_eq!(bench.store, [-5]);
}

/// 2 FROM scalar 0, 3 SKIP, 4 LOOP, 5 SKIP, 6 UNTIL scalar 1, 7 END.
fn looping() -> Tree {
    let body = vec![Node::From(
        scalar(0),
        vec![Node::Skip],
        vec![Node::Skip],
        scalar(1),
    )];
    tree(2, &[], vec![body])
}

#[test]
fn the_way_come_decides_at_from_and_not_the_value() {
    let down = Direction::Down;
    let mut outside = Bench::down(&looping());
    assert_eq!(outside.step(), 31);
    outside.store = vec![9, 0];
    assert_eq!(outside.step(), 0);
    assert_eq!(outside.at(), "2 3 down 2:2");
    let mut second = Bench::down(&looping());
    second.place = lent(down, 5, 2, &[(3, 2)]);
    second.store = vec![1, 0];
    assert_eq!(second.step(), 31);
    assert_eq!(second.at(), "5 2 down 3:2");
    second.store = vec![0, 0];
    assert_eq!(second.step(), 0);
    assert_eq!(second.at(), "2 3 down 2:2");
}

#[test]
fn the_way_come_decides_at_until_upwards() {
    let up = Direction::Up;
    let mut outside = Bench::up(&looping());
    assert_eq!(outside.step(), 31);
    outside.store = vec![0, -1];
    assert_eq!(outside.step(), 0);
    assert_eq!(outside.at(), "6 3 up 2:2");
    let mut second = Bench::up(&looping());
    second.place = lent(up, 5, 6, &[(3, 2)]);
    second.store = vec![0, 1];
    assert_eq!(second.step(), 31);
    second.store = vec![0, 0];
    assert_eq!(second.step(), 0);
    assert_eq!(second.at(), "6 3 up 2:2");
}

#[test]
fn x_of_i_and_x_of_j_of_one_array_are_8() {
    let body = vec![plus_at(0, scalar(0), array(0, scalar(1)))];
    assert_eq!(
        check_answer(&tree(2, &[9], vec![body]).encode()),
        "refused 8 2"
    );
}
