//! When a place fits, and what calls answer to a lent place that does not.
#![forbid(unsafe_code)]

mod common;

use common::lent;
use second::builder::*;
use second::calls;
use second::lent::LentPlace;
use second::place::{Direction, Frame};

const DOWN: Direction = Direction::Down;
const UP: Direction = Direction::Up;

fn fits(tree: &Tree, place: &LentPlace) -> bool {
    calls::fits(&tree.encode(), place).expect("a sound program")
}

/// 2 IF, 3 IF, 4 CALL 1, 5 ELSE, 6 SKIP, 7 FI, 8 ELSE, 9 UNCALL 2, 10 FI, 11 END;
/// 12 BEGIN, 13 FROM, 14 CALL 1, 15 LOOP, 16 SKIP, 17 UNTIL, 18 END; 19 BEGIN, 20 SKIP, 21 END.
fn calling() -> Tree {
    let skip = || vec![Node::Skip];
    let inner = Node::If(constant(1), vec![Node::Call(1)], skip(), constant(1));
    let outer = Node::If(constant(1), vec![inner], vec![Node::Uncall(2)], constant(1));
    let one = Node::From(constant(1), vec![Node::Call(1)], skip(), constant(1));
    tree(0, &[], vec![vec![outer], vec![one], skip()])
}

#[test]
fn places_that_fit() {
    let sound = [
        lent(DOWN, 1, 2, &[]),
        lent(UP, 11, 10, &[]),
        // Inside the outer IF, outside the inner one.
        lent(DOWN, 2, 3, &[(0, 2)]),
        lent(UP, 3, 2, &[(0, 2)]),
        lent(DOWN, 3, 6, &[(1, 3), (0, 2)]),
        lent(DOWN, 12, 13, &[(4, 4), (0, 3), (0, 2)]),
        lent(DOWN, 13, 14, &[(2, 13), (4, 4), (0, 3), (0, 2)]),
        lent(DOWN, 12, 13, &[(4, 14), (2, 13), (4, 4), (0, 3), (0, 2)]),
        lent(
            DOWN,
            17,
            16,
            &[(3, 13), (4, 14), (2, 13), (4, 4), (0, 3), (0, 2)],
        ),
        // The direction is not tied to the uncalls among the frames.
        lent(DOWN, 19, 20, &[(4, 9), (1, 2)]),
        lent(UP, 21, 20, &[(4, 9), (1, 2)]),
        // Not reachable from a start: both branches test the constant 1.
        lent(DOWN, 9, 10, &[(1, 2)]),
    ];
    for place in sound {
        assert!(fits(&calling(), &place), "{place:?}");
    }
}

#[test]
fn places_that_do_not_fit() {
    let unfit = [
        // No edge of that direction.
        lent(UP, 1, 2, &[]),
        lent(DOWN, 2, 1, &[]),
        lent(DOWN, 1, 3, &[]),
        lent(DOWN, 4, 5, &[(0, 3), (0, 2)]),
        lent(DOWN, 0, 1, &[]),
        lent(DOWN, 65_535, 2, &[]),
        lent(DOWN, 1, 65_535, &[]),
        // Constructs that are not those round the edge.
        lent(DOWN, 1, 2, &[(0, 2)]),
        lent(DOWN, 2, 3, &[]),
        lent(DOWN, 2, 3, &[(1, 2)]),
        lent(DOWN, 2, 3, &[(0, 3), (0, 2)]),
        lent(DOWN, 3, 6, &[(0, 2), (1, 3)]),
        lent(DOWN, 3, 6, &[(1, 3)]),
        lent(DOWN, 3, 6, &[(1, 3), (0, 2), (0, 2)]),
        lent(DOWN, 3, 6, &[(1, 7), (0, 2)]),
        lent(DOWN, 3, 6, &[(1, 3), (0, 65_535)]),
        lent(DOWN, 2, 3, &[(5, 2)]),
        lent(DOWN, 2, 3, &[(65_535, 2)]),
        lent(DOWN, 13, 14, &[(3, 13), (4, 4), (0, 3), (0, 2)]),
        // Procedures and calls that do not belong together.
        lent(DOWN, 12, 13, &[]),
        lent(DOWN, 12, 13, &[(4, 9), (1, 2)]),
        lent(DOWN, 19, 20, &[(4, 4), (0, 3), (0, 2)]),
        lent(DOWN, 1, 2, &[(4, 4), (0, 3), (0, 2)]),
        lent(DOWN, 12, 13, &[(4, 14), (2, 13)]),
        // A call's label that is no CALL or UNCALL.
        lent(DOWN, 12, 13, &[(4, 6), (1, 3), (0, 2)]),
        lent(DOWN, 12, 13, &[(4, 2)]),
        lent(DOWN, 12, 13, &[(4, 65_535)]),
        // Constructs below a call that are not those round the calling record.
        lent(DOWN, 12, 13, &[(4, 4), (0, 2)]),
        lent(DOWN, 12, 13, &[(4, 4), (0, 3), (1, 2)]),
        lent(DOWN, 12, 13, &[(4, 14), (3, 13), (4, 4), (0, 3), (0, 2)]),
        lent(DOWN, 12, 13, &[(4, 14), (4, 4), (0, 3), (0, 2)]),
    ];
    for place in unfit {
        assert!(!fits(&calling(), &place), "{place:?}");
    }
}

#[test]
fn sixty_four_calls_fit_and_sixty_five_do_not() {
    let body = vec![Node::Call(1)];
    let recursion = tree(0, &[], vec![body.clone(), body]);
    let with = |calls: usize| {
        let mut frames = vec![(4, 5); calls - 1];
        frames.push((4, 2));
        lent(DOWN, 4, 5, &frames)
    };
    assert!(fits(&recursion, &with(1)));
    assert!(fits(&recursion, &with(64)));
    assert!(!fits(&recursion, &with(65)));
}

#[test]
fn the_blank_place_fits_no_program() {
    for tree in [example(), calling()] {
        assert!(!fits(&tree, &LentPlace::blank()));
    }
}

#[test]
fn raw_fields_of_a_lent_place_are_21() {
    let sound = lent(DOWN, 2, 3, &[(0, 2)]);
    assert!(fits(&calling(), &sound));
    let damages: [fn(&mut LentPlace); 7] = [
        |place| place.direction = 2,
        |place| place.direction = 255,
        |place| place.count = 0,
        |place| place.count = 2,
        |place| place.count = 1105,
        |place| place.slots[1] = Frame::new(0, 1),
        |place| place.slots[1103] = Frame::new(1, 0),
    ];
    for damage in damages {
        let mut place = sound.clone();
        damage(&mut place);
        let answer = calls::step(&calling().encode(), &place, &mut []);
        assert_eq!(answer.refusal.expect("unfit").number.value(), 21);
        assert_eq!(answer.place, place);
    }
}

#[test]
fn a_start_fits_in_both_directions() {
    for tree in [example(), calling()] {
        for direction in [DOWN, UP] {
            let start = calls::start(&tree.encode(), direction).expect("sound");
            assert!(start.frames.is_empty());
            assert!(fits(&tree, &LentPlace::of(&start)));
        }
    }
}
