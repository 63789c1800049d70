//! Edges, steps both ways, runs, and the numbers 30 to 34.
#![forbid(unsafe_code)]

mod common;

use common::{lent, Bench};
use second::builder::*;
use second::cases::nested;
use second::check::check;
use second::place::{Direction, MAX_FRAMES};
use second::record::SetOperator;
use second::values::Operator;

const DOWN: Direction = Direction::Down;
const UP: Direction = Direction::Up;

/// Down edges as `from>to` with the constructs inside, sorted.
fn edges(tree: &Tree) -> Vec<String> {
    let program = check(&tree.encode()).expect("a sound program");
    let mut found: Vec<_> = program
        .edges
        .iter()
        .map(|edge| {
            let mut text = format!("{}>{}", edge.from, edge.to);
            for frame in &edge.inside.constructs {
                text += &format!(" {}:{}", frame.kind, frame.label);
            }
            (
                edge.from,
                edge.to,
                format!("{text} p{}", edge.inside.procedure),
            )
        })
        .collect();
    found.sort();
    found.into_iter().map(|(_, _, text)| text).collect()
}

#[test]
fn edges_of_plain_statements_and_two_procedures() {
    let two = tree(
        0,
        &[],
        vec![vec![Node::Skip, Node::Call(1)], vec![Node::Skip]],
    );
    let expected = ["1>2 p0", "2>3 p0", "3>4 p0", "5>6 p1", "6>7 p1"];
    assert_eq!(edges(&two), expected);
}

/// 2 IF, 3 IF, 4 SKIP, 5 ELSE, 6 SKIP, 7 FI, 8 ELSE, 9 SKIP, 10 FI, 11 SKIP, 12 END.
fn if_in_if() -> Tree {
    let inner = Node::If(scalar(0), vec![Node::Skip], vec![Node::Skip], scalar(0));
    let outer = Node::If(scalar(1), vec![inner], vec![Node::Skip], scalar(1));
    tree(2, &[], vec![vec![outer, Node::Skip]])
}

#[test]
fn edges_of_an_if_that_begins_a_branch() {
    let expected = [
        "1>2 p0",
        "2>3 0:2 p0",
        "2>9 1:2 p0",
        "3>4 0:3 0:2 p0",
        "3>6 1:3 0:2 p0",
        "4>7 0:3 0:2 p0",
        "6>7 1:3 0:2 p0",
        "7>10 0:2 p0",
        "9>10 1:2 p0",
        "10>11 p0",
        "11>12 p0",
    ];
    assert_eq!(edges(&if_in_if()), expected);
}

/// 2 FROM, 3 FROM, 4 SKIP, 5 LOOP, 6 SKIP, 7 UNTIL, 8 LOOP, 9 IF, 10 SKIP, 11 ELSE, 12 SKIP, 13 FI, 14 UNTIL, 15 END.
fn loop_in_loop() -> Tree {
    let skip = || vec![Node::Skip];
    let first = Node::From(scalar(0), skip(), skip(), scalar(1));
    let second = Node::If(scalar(2), skip(), skip(), scalar(2));
    let outer = Node::From(scalar(3), vec![first], vec![second], scalar(4));
    tree(5, &[], vec![vec![outer]])
}

#[test]
fn edges_of_loops() {
    let expected = [
        "1>2 p0",
        "2>3 2:2 p0",
        "3>4 2:3 2:2 p0",
        "4>7 2:3 2:2 p0",
        "6>3 3:3 2:2 p0",
        "7>6 3:3 2:2 p0",
        "7>14 2:2 p0",
        "9>10 0:9 3:2 p0",
        "9>12 1:9 3:2 p0",
        "10>13 0:9 3:2 p0",
        "12>13 1:9 3:2 p0",
        "13>2 3:2 p0",
        "14>9 3:2 p0",
        "14>15 p0",
    ];
    assert_eq!(edges(&loop_in_loop()), expected);
}

#[test]
fn upward_edges_are_the_downward_ones_reversed() {
    let program = check(&loop_in_loop().encode()).expect("sound");
    for edge in &program.edges {
        assert_eq!(program.edge(edge.from, edge.to, DOWN), Some(&edge.inside));
        assert_eq!(program.edge(edge.to, edge.from, UP), Some(&edge.inside));
        assert_eq!(program.edge(edge.to, edge.from, DOWN), None);
        assert_eq!(program.edge(edge.from, edge.to, UP), None);
    }
}

#[test]
fn names_else_and_loop_lie_on_no_edge() {
    for (tree, apart) in [
        (if_in_if(), vec![0, 5, 8]),
        (loop_in_loop(), vec![0, 5, 8, 11]),
    ] {
        let program = check(&tree.encode()).expect("sound");
        for label in 0..program.records.len() as u16 {
            let on_an_edge = program
                .edges
                .iter()
                .any(|e| e.from == label || e.to == label);
            assert_eq!(on_an_edge, !apart.contains(&label), "label {label}");
        }
    }
}

#[test]
fn both_starts() {
    assert_eq!(Bench::down(&loop_in_loop()).at(), "1 2 down");
    assert_eq!(Bench::up(&loop_in_loop()).at(), "15 14 up");
    assert_eq!(Bench::down(&example()).at(), "1 2 down");
    assert_eq!(Bench::up(&example()).at(), "8 7 up");
}

#[test]
fn set_down_applies_and_up_undoes() {
    let with = |operator| {
        let assignment = to_scalar(operator, 0, constant(6));
        tree(1, &[], vec![vec![Node::Set(assignment)]])
    };
    let after = |tree: &Tree, direction| {
        let mut bench = Bench::new(tree, direction);
        bench.store = vec![3];
        assert_eq!(bench.step(), 0);
        bench.store[0]
    };
    assert_eq!(after(&with(SetOperator::Plus), DOWN), 9);
    assert_eq!(after(&with(SetOperator::Plus), UP), -3);
    assert_eq!(after(&with(SetOperator::Minus), DOWN), -3);
    assert_eq!(after(&with(SetOperator::Minus), UP), 9);
    assert_eq!(after(&with(SetOperator::Xor), DOWN), 5);
    assert_eq!(after(&with(SetOperator::Xor), UP), 5);
}

#[test]
fn set_wraps_both_ways() {
    let body = vec![plus(0, constant(1)), minus(1, constant(1))];
    let mut bench = Bench::down(&tree(2, &[], vec![body]));
    bench.store = vec![i32::MAX, i32::MIN];
    assert_eq!(bench.run(2), (2, 0));
    assert_eq!(bench.store, [i32::MIN, i32::MAX]);
    assert_eq!(bench.run_back(2), (2, 0));
    assert_eq!(bench.store, [i32::MAX, i32::MIN]);
}

#[test]
fn cells_are_scalars_then_arrays_in_order() {
    let body = vec![
        plus(1, constant(1)),
        plus_at(0, constant(2), constant(2)),
        plus_at(1, constant(0), constant(3)),
        plus_at(1, constant(1), array(0, constant(2))),
        plus_at(2, constant(0), array(1, constant(0))),
        plus_at(2, constant(2), constant(9)),
    ];
    let mut bench = Bench::down(&tree(2, &[3, 2, 3], vec![body]));
    assert_eq!(bench.run(6), (6, 0));
    assert_eq!(bench.store, [0, 1, 0, 0, 2, 3, 2, 3, 0, 9]);
}

#[test]
fn a_set_tests_its_index_before_its_expression() {
    let zero = || binary(Operator::Remainder, constant(1), constant(0));
    let with = |index, expression| {
        let mut bench = Bench::down(&tree(0, &[2, 2], vec![vec![plus_at(0, index, expression)]]));
        bench.step()
    };
    assert_eq!(with(constant(2), zero()), 33);
    assert_eq!(with(zero(), array(1, constant(2))), 32);
    assert_eq!(with(constant(1), zero()), 32);
    assert_eq!(with(constant(1), array(1, constant(2))), 33);
    assert_eq!(with(constant(1), array(1, constant(1))), 0);
}

#[test]
fn evaluation_goes_left_first_and_an_index_before_its_test() {
    let zero = || binary(Operator::Divide, constant(1), constant(0));
    let outside = || array(0, constant(9));
    let test = |expression| {
        let body = vec![Node::If(
            expression,
            vec![Node::Skip],
            vec![Node::Skip],
            constant(1),
        )];
        Bench::down(&tree(0, &[2], vec![body])).step()
    };
    assert_eq!(test(binary(Operator::Add, zero(), outside())), 32);
    assert_eq!(test(binary(Operator::Add, outside(), zero())), 33);
    assert_eq!(test(binary(Operator::Divide, outside(), constant(0))), 33);
    assert_eq!(test(array(0, array(0, zero()))), 32);
    assert_eq!(test(array(0, array(0, constant(1)))), 0);
}

#[test]
fn if_chooses_and_fi_closes_down() {
    let mut bench = Bench::down(&if_in_if());
    bench.store = vec![0, 7];
    let walk = [
        "2 3 down 0:2",
        "3 6 down 1:3 0:2",
        "6 7 down 1:3 0:2",
        "7 10 down 0:2",
        "10 11 down",
        "11 12 down",
        "30",
    ];
    assert_eq!(bench.walk(), walk);
}

#[test]
fn fi_chooses_and_if_closes_up() {
    let mut bench = Bench::up(&if_in_if());
    bench.store = vec![1, 7];
    let walk = [
        "11 10 up",
        "10 7 up 0:2",
        "7 4 up 0:3 0:2",
        "4 3 up 0:3 0:2",
        "3 2 up 0:2",
        "2 1 up",
        "30",
    ];
    assert_eq!(bench.walk(), walk);
    bench = Bench::up(&if_in_if());
    let walk = ["11 10 up", "10 9 up 1:2", "9 2 up 1:2", "2 1 up", "30"];
    assert_eq!(bench.walk(), walk);
}

#[test]
fn a_closing_value_must_agree_with_the_frame() {
    let cases = [
        (DOWN, 9, 10, (1, 2), 1),
        (DOWN, 7, 10, (0, 2), 0),
        (UP, 3, 2, (0, 2), 0),
        (UP, 9, 2, (1, 2), 1),
    ];
    for (direction, a, b, frame, wrong) in cases {
        let mut bench = Bench::down(&if_in_if());
        bench.place = lent(direction, a, b, &[frame]);
        bench.store = vec![0, wrong];
        let before = bench.at();
        assert_eq!(bench.step(), 31, "{before}");
        assert_eq!(bench.at(), before);
        bench.store = vec![0, 1 - wrong];
        assert_eq!(bench.step(), 0, "{before}");
    }
}

#[test]
fn loops_go_round_and_leave_both_ways() {
    let skip = || vec![Node::Skip];
    let body = vec![Node::From(scalar(0), skip(), skip(), scalar(1))];
    let looping = tree(2, &[], vec![body]);
    let mut bench = Bench::down(&looping);
    bench.place = lent(DOWN, 3, 6, &[(2, 2)]);
    assert_eq!(bench.step(), 0);
    assert_eq!(bench.at(), "6 5 down 3:2");
    bench.place = lent(DOWN, 3, 6, &[(2, 2)]);
    bench.store = vec![0, 1];
    assert_eq!(bench.step(), 0);
    assert_eq!(bench.at(), "6 7 down");
    bench.place = lent(UP, 3, 2, &[(2, 2)]);
    assert_eq!(bench.step(), 0);
    assert_eq!(bench.at(), "2 5 up 3:2");
    bench.place = lent(UP, 3, 2, &[(2, 2)]);
    bench.store = vec![1, 1];
    assert_eq!(bench.step(), 0);
    assert_eq!(bench.at(), "2 1 up");
}

#[test]
fn evaluation_errors_come_before_31() {
    let zero = || binary(Operator::Divide, constant(1), constant(0));
    let skip = || vec![Node::Skip];
    let choice = tree(
        0,
        &[],
        vec![vec![Node::If(constant(1), skip(), skip(), zero())]],
    );
    let mut bench = Bench::down(&choice);
    assert_eq!(bench.run(9), (2, 32));
    let entered = tree(
        0,
        &[],
        vec![vec![Node::From(zero(), skip(), skip(), constant(1))]],
    );
    assert_eq!(Bench::down(&entered).step(), 32);
}

#[test]
fn a_refused_step_returns_its_place_and_leaves_the_store() {
    let zero = binary(Operator::Divide, constant(1), constant(0));
    let mut bench = Bench::down(&tree(1, &[], vec![vec![plus(0, zero)]]));
    bench.store = vec![42];
    let before = bench.place.clone();
    assert_eq!(bench.step(), 32);
    assert_eq!((&bench.place, bench.store[0]), (&before, 42));
    assert_eq!(bench.back(), 30);
    assert_eq!((&bench.place, bench.store[0]), (&before, 42));
}

#[test]
fn a_run_stops_at_n_or_at_the_first_refusal() {
    let mut bench = Bench::down(&example());
    assert_eq!(bench.run(0), (0, 0));
    assert_eq!(bench.at(), "1 2 down");
    assert_eq!(bench.run(11), (11, 0));
    assert_eq!(bench.run(1), (1, 0));
    assert_eq!(bench.at(), "7 8 down");
    assert_eq!(bench.run(0), (0, 0));
    assert_eq!(bench.run(1), (0, 30));
    assert_eq!(bench.run(u32::MAX), (0, 30));
    assert_eq!(bench.at(), "7 8 down");
    assert_eq!(bench.run_back(12), (12, 0));
    assert_eq!(bench.run_back(1), (0, 30));
    assert_eq!(bench.run(u32::MAX), (12, 30));
}

#[test]
fn the_store_of_a_stopped_run_is_the_one_at_that_place() {
    let zero = binary(Operator::Divide, constant(1), scalar(1));
    let body = vec![plus(0, constant(4)), plus(0, zero), plus(0, constant(8))];
    let mut bench = Bench::down(&tree(2, &[], vec![body]));
    assert_eq!(bench.run(9), (1, 32));
    assert_eq!((bench.at().as_str(), bench.store[0]), ("2 3 down", 4));
}

/// Main and procedure 1 both call 1 from under 16 constructs.
fn deepest() -> Tree {
    let body = vec![nested(16, Node::Call(1))];
    tree(0, &[], vec![body.clone(), body])
}

#[test]
fn stepping_reaches_1104_frames_and_returns() {
    let mut bench = Bench::down(&deepest());
    let (steps, reason) = bench.run(1_000_000);
    assert_eq!((steps, reason), (65 * 16 + 64, 34));
    assert_eq!(usize::from(bench.place.count), MAX_FRAMES);
    assert_eq!(bench.run_back(steps), (steps, 0));
    assert_eq!(bench.at(), "1 2 down");
}

#[test]
fn the_65th_call_is_34_for_uncalls_too() {
    let body = vec![Node::Uncall(1)];
    let mut bench = Bench::down(&tree(0, &[], vec![body.clone(), body]));
    assert_eq!(bench.run(1000), (64, 34));
    assert_eq!(bench.place.place().expect("a place").calls(), 64);
    assert_eq!(bench.run_back(1000), (64, 30));
    assert_eq!(bench.at(), "1 2 down");
}

#[test]
fn recursion_ends_where_its_test_says() {
    // Procedure 1: IF scalar 0 = 0 SKIP ELSE scalar 0 -= 1, CALL 1, scalar 0 += 1 FI scalar 0 = 0.
    let is_zero = || equal(scalar(0), constant(0));
    let deeper = vec![minus(0, constant(1)), Node::Call(1), plus(0, constant(1))];
    let one = vec![Node::If(is_zero(), vec![Node::Skip], deeper, is_zero())];
    let recursion = tree(
        1,
        &[],
        vec![vec![plus(0, constant(63)), Node::Call(1)], one.clone()],
    );
    let mut bench = Bench::down(&recursion);
    let (steps, reason) = bench.run(1_000_000);
    assert_eq!((reason, bench.store[0]), (30, 63));
    assert_eq!(bench.run_back(steps), (steps, 0));
    assert_eq!(bench.store[0], 0);
    let too_deep = tree(
        1,
        &[],
        vec![vec![plus(0, constant(64)), Node::Call(1)], one],
    );
    assert_eq!(Bench::down(&too_deep).run(1_000_000).1, 34);
}

#[test]
fn end_is_30_in_main_alone() {
    let called = tree(0, &[], vec![vec![Node::Call(1)], vec![Node::Skip]]);
    let mut bench = Bench::down(&called);
    bench.place = lent(DOWN, 5, 6, &[(4, 2)]);
    assert_eq!(bench.step(), 0);
    assert_eq!(bench.at(), "2 3 down");
    assert_eq!(bench.step(), 30);
    bench.place = lent(UP, 2, 1, &[]);
    assert_eq!(bench.step(), 30);
    bench.place = lent(DOWN, 1, 2, &[]);
    assert_eq!(bench.back(), 30);
}

#[test]
fn one_step_back_arrives_where_the_step_came_from() {
    let mut bench = Bench::down(&example());
    let mut visited = vec![(bench.at(), bench.store.clone())];
    while bench.step() == 0 {
        visited.push((bench.at(), bench.store.clone()));
    }
    assert_eq!(visited.len(), 13);
    visited.pop();
    while let Some(earlier) = visited.pop() {
        assert_eq!(bench.back(), 0);
        assert_eq!((bench.at(), bench.store.clone()), earlier);
    }
    assert_eq!(bench.back(), 30);
}
