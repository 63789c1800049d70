//! Program files at every boundary of the check, each with its answer stated by hand.

use crate::builder::*;
use crate::bytes::put_framed;
use crate::expression::Expression;
use crate::record::{Record, SetOperator};
use crate::values::Operator;

/// `accepted RECORDS PROCEDURES CELLS` or `refused NUMBER RECORD`.
pub struct Case {
    pub name: String,
    pub file: Vec<u8>,
    pub answer: String,
}

fn case(name: &str, file: Vec<u8>, answer: &str) -> Case {
    Case {
        name: name.to_string(),
        file,
        answer: answer.to_string(),
    }
}

/// A record of any kind and body, sound or not.
pub fn raw(kind: u16, body: &[u8]) -> Vec<u8> {
    let mut out = vec![];
    put_framed(&mut out, kind, body);
    out
}

pub fn joined(parts: &[Vec<u8>]) -> Vec<u8> {
    parts.concat()
}

pub fn records(list: &[Record]) -> Vec<u8> {
    encode(list)
}

/// NAMES with 4 scalars and two arrays of 2, then main with one row of records.
pub fn with_main(row: &[Record]) -> Vec<u8> {
    let mut list = vec![names(4, &[2, 2]), Record::Begin];
    list.extend_from_slice(row);
    list.push(Record::End);
    encode(&list)
}

/// The same with a raw record as the one statement: it has label 2.
fn with_raw(kind: u16, body: &[u8]) -> Vec<u8> {
    joined(&[
        records(&[names(4, &[2, 2]), Record::Begin]),
        raw(kind, body),
        records(&[Record::End]),
    ])
}

/// Binary operators nested to the left, depth as given.
pub fn deep_binary(depth: usize) -> Expression {
    (1..depth).fold(constant(1), |inner, _| {
        binary(Operator::Add, inner, constant(1))
    })
}

/// The same nested to the right.
pub fn deep_right(depth: usize) -> Expression {
    (1..depth).fold(constant(1), |inner, _| {
        binary(Operator::Add, constant(1), inner)
    })
}

/// Reads of array 0 nested in each other's index, depth as given.
pub fn deep_array(depth: usize) -> Expression {
    (1..depth).fold(constant(0), |inner, _| array(0, inner))
}

/// IF and FROM by turns, as many open at once as given, with `inner` at the bottom.
pub fn nested(open: usize, inner: Node) -> Node {
    (0..open).fold(inner, |within, level| {
        let (holds, other) = (constant(1), vec![Node::Skip]);
        match level % 2 {
            0 => Node::If(holds.clone(), vec![within], other, holds),
            _ => Node::From(holds.clone(), vec![within], other, holds),
        }
    })
}

/// The same through the second branches and parts, so that the nesting sits after ELSE and LOOP.
fn nested_second(open: usize) -> Node {
    (0..open).fold(Node::Skip, |within, level| {
        let (holds, other) = (constant(1), vec![Node::Skip]);
        match level % 2 {
            0 => Node::If(holds.clone(), other, vec![within], holds),
            _ => Node::From(holds.clone(), other, vec![within], holds),
        }
    })
}

/// An expression of exactly so many bytes, from scalar 1 and constants; not every size below 17 is one.
pub fn sized_expression(size: usize) -> Expression {
    // n leaves and their operators take 5 n - 2 bytes, and 2 more for each leaf that is a constant.
    let fits = |n: &usize| 7 * n - 2 >= size && 5 * n - 2 <= size && (size + 2 - 5 * n) & 1 == 0;
    let leaves = (1..=size)
        .find(fits)
        .expect("a size that an expression can have");
    let constants = (size + 2 - 5 * leaves) / 2;
    balanced(leaves, constants)
}

fn balanced(leaves: usize, constants: usize) -> Expression {
    if leaves == 1 {
        return if constants == 1 {
            constant(7)
        } else {
            scalar(1)
        };
    }
    let left = leaves / 2;
    let in_left = constants.min(left);
    binary(
        Operator::Xor,
        balanced(left, in_left),
        balanced(leaves - left, constants - in_left),
    )
}

/// A sound program file of exactly so many bytes: its main is one SET of scalar 0.
pub fn file_of_size(size: usize) -> Vec<u8> {
    tree(2, &[], vec![vec![plus(0, sized_expression(size - 24))]]).encode()
}

/// NAMES, BEGIN, SKIP as often as needed, END.
pub fn file_of_records(count: usize) -> Vec<u8> {
    tree(0, &[], vec![vec![Node::Skip; count - 3]]).encode()
}

pub fn file_of_procedures(count: usize) -> Vec<u8> {
    tree(0, &[], vec![vec![Node::Skip]; count]).encode()
}

fn file_of_names(scalars: u16, lengths: &[u16]) -> Vec<u8> {
    tree(scalars, lengths, vec![vec![Node::Skip]]).encode()
}

pub fn all() -> Vec<Case> {
    let groups = [
        long_files(),
        cut_records(),
        unknown_kinds(),
        malformed_bodies(),
        malformed_expressions(),
        depths(),
        sizes(),
        counts(),
        orders(),
        open_constructs(),
        missing_numbers(),
        own_names(),
        indices(),
        faults_in_order(),
    ];
    groups.into_iter().flatten().collect()
}

fn long_files() -> Vec<Case> {
    vec![
        case("example", example().encode(), "accepted 9 1 2"),
        case("32,768 bytes", file_of_size(32_768), "accepted 4 1 2"),
        case("32,769 bytes", file_of_size(32_769), "refused 1 0"),
        case("32,768 zero bytes", vec![0; 32_768], "refused 2 0"),
        case("32,769 zero bytes", vec![0; 32_769], "refused 1 0"),
    ]
}

fn cut_records() -> Vec<Case> {
    let example = example().encode();
    let and = |rest: &[u8]| joined(&[example.clone(), rest.to_vec()]);
    vec![
        case("1 byte", vec![4], "refused 2 0"),
        case("2 bytes", vec![4, 0], "refused 2 0"),
        case("3 bytes", vec![4, 0, 13], "refused 2 0"),
        case("1 byte left", and(&[4]), "refused 2 9"),
        case("2 bytes left", and(&[4, 0]), "refused 2 9"),
        case("3 bytes left", and(&[4, 0, 13]), "refused 2 9"),
        case("length 0", and(&[0, 0, 13, 0]), "refused 2 9"),
        case("length 1", and(&[1, 0, 13, 0]), "refused 2 9"),
        case("length 3", and(&[3, 0, 13, 0]), "refused 2 9"),
        case("length 4", and(&[4, 0, 2, 0]), "refused 6 10"),
        case("length past the end", and(&[5, 0, 13, 0]), "refused 2 9"),
        case("length 65,535", and(&[255, 255, 13, 0]), "refused 2 9"),
        case("cut at the end", example[..75].to_vec(), "refused 2 8"),
        case("cut in a body", example[..20].to_vec(), "refused 2 2"),
        case("whole records only", example[..72].to_vec(), "refused 6 8"),
    ]
}

fn unknown_kinds() -> Vec<Case> {
    [0, 14, 15, 32, 33, 256, 65_535]
        .into_iter()
        .map(|kind| case(&format!("kind {kind}"), with_raw(kind, &[]), "refused 3 2"))
        .chain([
            case("kind 0 first", vec![4, 0, 0, 0], "refused 3 0"),
            case("kind 14 with a body", with_raw(14, &[1, 2]), "refused 3 2"),
            case("kind 14 cut", vec![5, 0, 14, 0], "refused 2 0"),
        ])
        .collect()
}

fn malformed_bodies() -> Vec<Case> {
    let empty_kinds = [2, 3, 6, 9, 13].into_iter().map(|kind| {
        let name = format!("kind {kind} with a body");
        case(&name, with_raw(kind, &[0]), "refused 4 2")
    });
    let calls = [11, 12].into_iter().flat_map(|kind| {
        [&[][..], &[0], &[0, 0, 0]].into_iter().map(move |body| {
            let name = format!("kind {kind} with {} bytes", body.len());
            case(&name, with_raw(kind, body), "refused 4 2")
        })
    });
    let set = |name: &str, body: &[u8]| case(name, with_raw(4, body), "refused 4 2");
    let others = [
        set("SET operator 3", &[3, 0, 0, 0, 1, 1, 0]),
        set("SET operator 255", &[255, 0, 0, 0, 1, 1, 0]),
        set("SET target 2", &[0, 2, 0, 0, 1, 1, 0]),
        set("SET target 255", &[0, 255, 0, 0, 1, 1, 0]),
        set("SET empty", &[]),
        set("SET without number", &[0, 0, 0]),
        set("SET without expression", &[0, 0, 0, 0]),
        set("SET array without index", &[0, 1, 0, 0, 1, 1, 0]),
        set("SET scalar with index", &[0, 0, 0, 0, 1, 1, 0, 1, 2, 0]),
        set("SET with a byte after", &[0, 0, 0, 0, 1, 1, 0, 0]),
        case(
            "SET array sound",
            with_raw(4, &[2, 1, 0, 0, 1, 1, 0, 1, 2, 0]),
            "accepted 4 1 8",
        ),
    ];
    empty_kinds
        .chain(calls)
        .chain(others)
        .chain(malformed_names())
        .collect()
}

fn malformed_names() -> Vec<Case> {
    let names = |name: &str, body: &[u8], answer: &str| {
        let rest = records(&[Record::Begin, Record::Skip, Record::End]);
        case(name, joined(&[raw(1, body), rest]), answer)
    };
    vec![
        names("NAMES empty", &[], "refused 4 0"),
        names("NAMES of 3 bytes", &[1, 0, 0], "refused 4 0"),
        names("NAMES of 5 bytes", &[1, 0, 0, 0, 0], "refused 4 0"),
        names("NAMES lacks a length", &[1, 0, 1, 0], "refused 4 0"),
        names("NAMES half a length", &[1, 0, 1, 0, 1], "refused 4 0"),
        names("NAMES a length over", &[1, 0, 0, 0, 1, 0], "refused 4 0"),
        names("NAMES A 65,535", &[1, 0, 255, 255, 1, 0], "refused 4 0"),
        names("NAMES A 17 and no lengths", &[0, 0, 17, 0], "refused 4 0"),
        names(
            "NAMES V 65 and half a length",
            &[65, 0, 1, 0, 1],
            "refused 4 0",
        ),
        names("NAMES sound", &[1, 0, 1, 0, 1, 0], "accepted 4 1 2"),
    ]
}

/// A file with this expression in a record of the kind given, all else sound, and its label.
fn with_expression(kind: u16, expression: &[u8]) -> (Vec<u8>, usize) {
    let sound = [1, 0, 0];
    let construct = |opener, test: &[u8], turn, closer, assertion: &[u8]| {
        joined(&[
            records(&[names(4, &[2, 2]), Record::Begin]),
            raw(opener, test),
            records(&[Record::Skip, turn, Record::Skip]),
            raw(closer, assertion),
            records(&[Record::End]),
        ])
    };
    match kind {
        5 => (construct(5, expression, Record::Else, 7, &sound), 2),
        7 => (construct(5, &sound, Record::Else, 7, expression), 6),
        8 => (construct(8, expression, Record::Loop, 10, &sound), 2),
        10 => (construct(8, &sound, Record::Loop, 10, expression), 6),
        _ => (with_raw(4, &[&[0, 0, 2, 0], expression].concat()), 2),
    }
}

fn malformed_expressions() -> Vec<Case> {
    let sound = [
        (&[0, 1, 2, 3, 4][..], "constant"),
        (&[1, 3, 0], "scalar"),
        (&[2, 1, 0, 1, 0, 0], "array"),
        (&[3, 15, 1, 0, 0, 1, 1, 0], "binary 15"),
    ];
    let broken = [
        (&[][..], "no expression"),
        (&[0], "constant without value"),
        (&[0, 1, 2, 3], "constant of 3 bytes"),
        (&[0, 1, 2, 3, 4, 5], "a byte after a constant"),
        (&[1], "scalar without number"),
        (&[1, 0], "scalar of 1 byte"),
        (&[1, 0, 0, 1, 0, 0], "two expressions"),
        (&[2, 0, 0], "array without index"),
        (&[2, 0, 0, 4], "array with a broken index"),
        (&[3], "binary without operator"),
        (&[3, 0], "binary without sides"),
        (&[3, 0, 1, 0, 0], "binary without right side"),
        (&[3, 16, 1, 0, 0, 1, 1, 0], "operator 16"),
        (&[3, 255, 1, 0, 0, 1, 1, 0], "operator 255"),
        (&[4, 0, 0], "code 4"),
        (&[255], "code 255"),
    ];
    let mut cases = vec![];
    for kind in [4, 5, 7, 8, 10] {
        for (expression, name) in sound {
            let (file, _) = with_expression(kind, expression);
            let answer = if kind == 4 {
                "accepted 4 1 8"
            } else {
                "accepted 8 1 8"
            };
            cases.push(case(&format!("kind {kind}: {name}"), file, answer));
        }
        for (expression, name) in broken {
            let (file, label) = with_expression(kind, expression);
            let answer = format!("refused 4 {label}");
            cases.push(case(&format!("kind {kind}: {name}"), file, &answer));
        }
    }
    cases
}

fn depths() -> Vec<Case> {
    let set = |expression| with_main(&[Record::Set(to_scalar(SetOperator::Plus, 0, expression))]);
    let at = |index| {
        let assignment = to_array(SetOperator::Plus, 1, index, constant(1));
        with_main(&[Record::Set(assignment)])
    };
    let fi = |expression: Expression| {
        with_main(&[
            Record::If(constant(0)),
            Record::Skip,
            Record::Else,
            Record::Skip,
            Record::Fi(expression),
        ])
    };
    vec![
        case("left depth 16", set(deep_binary(16)), "accepted 4 1 8"),
        case("left depth 17", set(deep_binary(17)), "refused 4 2"),
        case("right depth 16", set(deep_right(16)), "accepted 4 1 8"),
        case("right depth 17", set(deep_right(17)), "refused 4 2"),
        case("array depth 16", set(deep_array(16)), "accepted 4 1 8"),
        case("array depth 17", set(deep_array(17)), "refused 4 2"),
        case("index depth 16", at(deep_binary(16)), "accepted 4 1 8"),
        case("index depth 17", at(deep_binary(17)), "refused 4 2"),
        case("FI depth 16", fi(deep_array(16)), "accepted 8 1 8"),
        case("FI depth 17", fi(deep_array(17)), "refused 4 6"),
        case("depth 4,000", set(deep_binary(4_000)), "refused 4 2"),
    ]
}

fn sizes() -> Vec<Case> {
    let two_kibi = [1024, 960];
    let second_names = |scalars, lengths: &[u16]| {
        records(&[
            names(0, &[]),
            Record::Begin,
            names(scalars, lengths),
            Record::End,
        ])
    };
    vec![
        case("V 64", file_of_names(64, &[]), "accepted 4 1 64"),
        case("V 65", file_of_names(65, &[]), "refused 5 0"),
        case("V 65,535", file_of_names(65_535, &[]), "refused 5 0"),
        case("A 16", file_of_names(0, &[1; 16]), "accepted 4 1 16"),
        case("A 17", file_of_names(0, &[1; 17]), "refused 5 0"),
        case("A 10,000", file_of_names(0, &[1; 10_000]), "refused 5 0"),
        case("array length 0", file_of_names(1, &[1, 0]), "refused 5 0"),
        case("array length 1", file_of_names(1, &[1]), "accepted 4 1 2"),
        case(
            "array length 1,024",
            file_of_names(1, &[1024]),
            "accepted 4 1 1025",
        ),
        case(
            "array length 1,025",
            file_of_names(1, &[1025]),
            "refused 5 0",
        ),
        case(
            "cells 2,048",
            file_of_names(64, &two_kibi),
            "accepted 4 1 2048",
        ),
        case(
            "cells 2,048 of arrays",
            file_of_names(0, &[1024; 2]),
            "accepted 4 1 2048",
        ),
        case(
            "cells 2,049",
            file_of_names(64, &[1024, 961]),
            "refused 5 0",
        ),
        case(
            "cells 2,049 by a scalar",
            file_of_names(1, &[1024; 2]),
            "refused 5 0",
        ),
        case(
            "cells past 65,535",
            file_of_names(64, &[1024; 64]),
            "refused 5 0",
        ),
        case("no cells", file_of_names(0, &[]), "accepted 4 1 0"),
        case(
            "a second NAMES too large",
            second_names(65, &[]),
            "refused 5 2",
        ),
        case(
            "a second NAMES with length 0",
            second_names(0, &[0]),
            "refused 5 2",
        ),
        case(
            "a second NAMES of sound size",
            second_names(1, &[]),
            "refused 6 2",
        ),
    ]
}

fn counts() -> Vec<Case> {
    let after_1024 = |rest: Vec<u8>| joined(&[file_of_records(1024), rest]);
    let begins = |count| {
        let mut list = vec![names(0, &[])];
        list.extend(vec![Record::Begin; count]);
        records(&list)
    };
    let then_begin = |rest: Vec<u8>| joined(&[file_of_procedures(64), rest]);
    vec![
        case("1,024 records", file_of_records(1024), "accepted 1024 1 0"),
        case("1,025 records", file_of_records(1025), "refused 5 1024"),
        case("2,000 records", file_of_records(2000), "refused 5 1024"),
        case("the 1,025th cut", after_1024(vec![4]), "refused 2 1024"),
        case(
            "the 1,025th unknown",
            after_1024(raw(14, &[])),
            "refused 3 1024",
        ),
        case(
            "the 1,025th malformed",
            after_1024(raw(13, &[0])),
            "refused 4 1024",
        ),
        case(
            "the 1,025th sound",
            after_1024(raw(13, &[])),
            "refused 5 1024",
        ),
        case("64 procedures", file_of_procedures(64), "accepted 193 64 0"),
        case("65 procedures", file_of_procedures(65), "refused 5 193"),
        case("64 BEGINs in a row", begins(64), "refused 6 2"),
        case("65 BEGINs in a row", begins(65), "refused 5 65"),
        case(
            "the 65th BEGIN malformed",
            then_begin(raw(2, &[0])),
            "refused 4 193",
        ),
        case(
            "a fault after the 65th BEGIN",
            then_begin(vec![4, 0, 2, 0, 1]),
            "refused 5 193",
        ),
        case(
            "a fault before the 65th BEGIN",
            then_begin(vec![4, 0, 13, 0, 1]),
            "refused 2 194",
        ),
    ]
}

/// Rows of kinds, by a letter each: N B E, s for SKIP, i e f for IF, F L U for FROM.
fn by_letters(letters: &str) -> Vec<u8> {
    let list: Vec<Record> = letters.chars().map(lettered).collect();
    records(&list)
}

fn lettered(letter: char) -> Record {
    match letter {
        'N' => names(0, &[]),
        'B' => Record::Begin,
        'E' => Record::End,
        's' => Record::Skip,
        'i' => Record::If(constant(1)),
        'e' => Record::Else,
        'f' => Record::Fi(constant(1)),
        'F' => Record::From(constant(1)),
        'L' => Record::Loop,
        'U' => Record::Until(constant(1)),
        _ => unreachable!("no such letter"),
    }
}

fn orders() -> Vec<Case> {
    [
        ("", "refused 6 0"),
        ("N", "refused 6 1"),
        ("NB", "refused 6 2"),
        ("NBE", "refused 6 2"),
        ("NBs", "refused 6 3"),
        ("NBsE", "accepted 4 1 0"),
        ("NBsEBssE", "accepted 8 2 0"),
        ("B", "refused 6 0"),
        ("s", "refused 6 0"),
        ("E", "refused 6 0"),
        ("i", "refused 6 0"),
        ("NN", "refused 6 1"),
        ("Ns", "refused 6 1"),
        ("NE", "refused 6 1"),
        ("Ni", "refused 6 1"),
        ("NF", "refused 6 1"),
        ("NBN", "refused 6 2"),
        ("NBB", "refused 6 2"),
        ("NBsB", "refused 6 3"),
        ("NBsEs", "refused 6 4"),
        ("NBsEE", "refused 6 4"),
        ("NBsEN", "refused 6 4"),
        ("NBsEi", "refused 6 4"),
        ("NBsEB", "refused 6 5"),
        ("NBsEBE", "refused 6 5"),
        ("NBe", "refused 6 2"),
        ("NBf", "refused 6 2"),
        ("NBL", "refused 6 2"),
        ("NBU", "refused 6 2"),
        ("NBse", "refused 6 3"),
        ("NBi", "refused 6 3"),
        ("NBie", "refused 6 3"),
        ("NBif", "refused 6 3"),
        ("NBiE", "refused 6 3"),
        ("NBiL", "refused 6 3"),
        ("NBisf", "refused 6 4"),
        ("NBisE", "refused 6 4"),
        ("NBisL", "refused 6 4"),
        ("NBisU", "refused 6 4"),
        ("NBise", "refused 6 5"),
        ("NBisef", "refused 6 5"),
        ("NBisee", "refused 6 5"),
        ("NBisese", "refused 6 6"),
        ("NBisesU", "refused 6 6"),
        ("NBisesE", "refused 6 6"),
        ("NBisesfE", "accepted 8 1 0"),
        ("NBisesfs", "refused 6 8"),
        ("NBisesff", "refused 6 7"),
        ("NBF", "refused 6 3"),
        ("NBFL", "refused 6 3"),
        ("NBFU", "refused 6 3"),
        ("NBFsU", "refused 6 4"),
        ("NBFse", "refused 6 4"),
        ("NBFsE", "refused 6 4"),
        ("NBFsLU", "refused 6 5"),
        ("NBFsLL", "refused 6 5"),
        ("NBFsLsL", "refused 6 6"),
        ("NBFsLsf", "refused 6 6"),
        ("NBFsLsE", "refused 6 6"),
        ("NBFsLsUE", "accepted 8 1 0"),
        ("NBFsLsUU", "refused 6 7"),
        ("NBisesfFsLsUE", "accepted 13 1 0"),
        ("NBiFsLsUesfE", "accepted 12 1 0"),
        ("NBFisesfLsUE", "accepted 12 1 0"),
        ("NBFsLisesfUE", "accepted 12 1 0"),
        ("NBiFsLsfesUE", "refused 6 7"),
        ("NBsEBsEBsE", "accepted 10 3 0"),
    ]
    .into_iter()
    .map(|(letters, answer)| case(&format!("order {letters}"), by_letters(letters), answer))
    .collect()
}

fn open_constructs() -> Vec<Case> {
    let of = |body: Vec<Node>| tree(0, &[], vec![body]).encode();
    let alone = |open: usize, letter: &str| by_letters(&format!("NB{}", letter.repeat(open)));
    vec![
        case(
            "16 open",
            of(vec![nested(16, Node::Skip)]),
            "accepted 68 1 0",
        ),
        case("17 open", of(vec![nested(17, Node::Skip)]), "refused 6 18"),
        case(
            "16 open in second parts",
            of(vec![nested_second(16)]),
            "accepted 68 1 0",
        ),
        case(
            "17 open in second parts",
            of(vec![nested_second(17)]),
            "refused 6 50",
        ),
        case(
            "16 open twice",
            of(vec![nested(16, Node::Skip), nested(16, Node::Skip)]),
            "accepted 133 1 0",
        ),
        case(
            "17 in a row, one open",
            of(vec![nested(1, Node::Skip); 17]),
            "accepted 88 1 0",
        ),
        case("16 IFs and no more", alone(16, "i"), "refused 6 18"),
        case("17 IFs and no more", alone(17, "i"), "refused 6 18"),
        case("18 IFs and no more", alone(18, "i"), "refused 6 18"),
        case("16 FROMs and no more", alone(16, "F"), "refused 6 18"),
        case("17 FROMs and no more", alone(17, "F"), "refused 6 18"),
        case(
            "16 open, a SKIP, no more",
            by_letters(&format!("NB{}s", "iF".repeat(8))),
            "refused 6 19",
        ),
    ]
}

fn missing_numbers() -> Vec<Case> {
    let set = |number, expression| {
        with_main(&[Record::Set(to_scalar(
            SetOperator::Plus,
            number,
            expression,
        ))])
    };
    let at = |number, index, expression| {
        let assignment = to_array(SetOperator::Xor, number, index, expression);
        with_main(&[Record::Set(assignment)])
    };
    let within = |test: Expression, assertion: Expression| {
        with_main(&[
            Record::If(test),
            Record::Skip,
            Record::Else,
            Record::Skip,
            Record::Fi(assertion),
        ])
    };
    let looped = |assertion: Expression, test: Expression| {
        with_main(&[
            Record::From(assertion),
            Record::Skip,
            Record::Loop,
            Record::Skip,
            Record::Until(test),
        ])
    };
    let nothing_named = |expression| {
        let body = vec![Node::If(
            expression,
            vec![Node::Skip],
            vec![Node::Skip],
            constant(1),
        )];
        tree(0, &[], vec![body]).encode()
    };
    let mut cases = vec![
        case("target scalar 3", set(3, constant(1)), "accepted 4 1 8"),
        case("target scalar 4", set(4, constant(1)), "refused 7 2"),
        case(
            "target scalar 65,535",
            set(65_535, constant(1)),
            "refused 7 2",
        ),
        case(
            "target array 1",
            at(1, constant(0), constant(1)),
            "accepted 4 1 8",
        ),
        case(
            "target array 2",
            at(2, constant(0), constant(1)),
            "refused 7 2",
        ),
        case("scalar 4 read", set(0, scalar(4)), "refused 7 2"),
        case(
            "scalar 4 in an index",
            at(0, scalar(4), constant(1)),
            "refused 7 2",
        ),
        case(
            "scalar 4 deep",
            set(0, binary(Operator::Less, constant(1), array(0, scalar(4)))),
            "refused 7 2",
        ),
        case("array 2 read", set(0, array(2, constant(0))), "refused 7 2"),
        case(
            "array 2 in an index",
            at(0, array(2, constant(0)), constant(1)),
            "refused 7 2",
        ),
        case(
            "array 3, where scalar 3 is",
            set(0, array(3, constant(0))),
            "refused 7 2",
        ),
        case(
            "IF reads scalar 4",
            within(scalar(4), constant(1)),
            "refused 7 2",
        ),
        case(
            "FI reads scalar 4",
            within(constant(1), scalar(4)),
            "refused 7 6",
        ),
        case(
            "FROM reads scalar 4",
            looped(scalar(4), constant(1)),
            "refused 7 2",
        ),
        case(
            "UNTIL reads array 2",
            looped(constant(1), array(2, constant(0))),
            "refused 7 6",
        ),
        case("scalar 0 of none", nothing_named(scalar(0)), "refused 7 2"),
        case(
            "array 0 of none",
            nothing_named(array(0, constant(0))),
            "refused 7 2",
        ),
    ];
    cases.extend(missing_procedures());
    cases
}

fn missing_procedures() -> Vec<Case> {
    let main_and_one = |main: Node, one: Node| tree(0, &[], vec![vec![main], vec![one]]).encode();
    [(false, "CALL"), (true, "UNCALL")]
        .into_iter()
        .flat_map(|(uncall, word)| {
            let to = move |procedure| match uncall {
                true => Node::Uncall(procedure),
                false => Node::Call(procedure),
            };
            let named = move |name: &str| format!("{word} {name}");
            [
                case(&named("0"), main_and_one(to(0), Node::Skip), "refused 7 2"),
                case(
                    &named("1"),
                    main_and_one(to(1), Node::Skip),
                    "accepted 7 2 0",
                ),
                case(
                    &named("2 of 2"),
                    main_and_one(to(2), Node::Skip),
                    "refused 7 2",
                ),
                case(
                    &named("65,535"),
                    main_and_one(to(65_535), Node::Skip),
                    "refused 7 2",
                ),
                case(
                    &named("0 from 1"),
                    main_and_one(Node::Skip, to(0)),
                    "refused 7 5",
                ),
                case(
                    &named("1 from 1"),
                    main_and_one(Node::Skip, to(1)),
                    "accepted 7 2 0",
                ),
            ]
        })
        .collect()
}

fn own_names() -> Vec<Case> {
    let set = |number, expression| {
        with_main(&[Record::Set(to_scalar(
            SetOperator::Plus,
            number,
            expression,
        ))])
    };
    let at = |number, index, expression| {
        let assignment = to_array(SetOperator::Minus, number, index, expression);
        with_main(&[Record::Set(assignment)])
    };
    let one_long = tree(1, &[1], vec![vec![plus_at(0, scalar(0), constant(1))]]);
    let deep_own = binary(Operator::Add, constant(1), array(1, array(0, scalar(0))));
    vec![
        case("scalar 0 += scalar 0", set(0, scalar(0)), "refused 8 2"),
        case("scalar 0 += scalar 1", set(0, scalar(1)), "accepted 4 1 8"),
        case(
            "scalar 0 deep in its own",
            set(0, deep_own.clone()),
            "refused 8 2",
        ),
        case("scalar 1 with the same", set(1, deep_own), "accepted 4 1 8"),
        case(
            "scalar 0 += array 0",
            set(0, array(0, constant(0))),
            "accepted 4 1 8",
        ),
        case(
            "scalar 0 as an index",
            set(0, array(1, scalar(0))),
            "refused 8 2",
        ),
        case("array 0 at scalar 0", one_long.encode(), "accepted 4 1 2"),
        case(
            "array 0 += scalar 0",
            at(0, constant(0), scalar(0)),
            "accepted 4 1 8",
        ),
        case(
            "array 0 += array 1",
            at(0, constant(0), array(1, constant(0))),
            "accepted 4 1 8",
        ),
        case(
            "array 0 at array 0",
            at(0, array(0, constant(0)), constant(1)),
            "refused 8 2",
        ),
        case(
            "array 0 at array 1",
            at(0, array(1, constant(0)), constant(1)),
            "accepted 4 1 8",
        ),
        case(
            "array 0 from another cell",
            at(0, constant(0), array(0, constant(1))),
            "refused 8 2",
        ),
        case(
            "x[i] += x[j]",
            at(1, scalar(0), array(1, scalar(1))),
            "refused 8 2",
        ),
    ]
}

/// The first of two or more faults in one file.
/// An index is a step's business: the check accepts 1,023, 1,024 and -1 of a length 1,024 alike.
fn indices() -> Vec<Case> {
    [1023, 1024, -1]
        .iter()
        .map(|&i| {
            let read = to_scalar(SetOperator::Plus, 0, array(0, constant(i)));
            let list = [
                names(1, &[1024]),
                Record::Begin,
                Record::Set(read),
                Record::End,
            ];
            case(
                &format!("index {i} of a length 1,024"),
                encode(&list),
                "accepted 4 1 1025",
            )
        })
        .collect()
}

fn faults_in_order() -> Vec<Case> {
    let own = Record::Set(to_scalar(SetOperator::Plus, 0, scalar(0)));
    let gone = Record::Set(to_scalar(SetOperator::Plus, 9, constant(1)));
    let own_and_gone = Record::Set(to_scalar(SetOperator::Plus, 9, scalar(9)));
    let start = records(&[names(4, &[]), Record::Begin]);
    let then = |parts: &[Vec<u8>]| joined(&[start.clone(), joined(parts)]);
    let (cut, unknown, malformed) = (vec![3, 0, 14, 0], raw(99, &[0]), raw(13, &[9]));
    let large = records(&[names(65, &[])]);
    vec![
        case("1 before all", vec![7; 32_769], "refused 1 0"),
        case(
            "3 at 2, 2 at 3",
            then(&[unknown.clone(), cut.clone()]),
            "refused 3 2",
        ),
        case(
            "4 at 2, 3 at 3",
            then(&[malformed.clone(), unknown.clone()]),
            "refused 4 2",
        ),
        case(
            "5 at 2, 4 at 3",
            then(&[large.clone(), malformed.clone()]),
            "refused 5 2",
        ),
        case(
            "4 at 2, 5 at 3",
            then(&[malformed, large.clone()]),
            "refused 4 2",
        ),
        case("6 at 2, 2 at 3", then(&[raw(3, &[]), cut]), "refused 2 3"),
        case(
            "6 at 2, 3 at 3",
            then(&[raw(3, &[]), unknown]),
            "refused 3 3",
        ),
        case("6 at 2, 5 at 3", then(&[raw(3, &[]), large]), "refused 5 3"),
        case(
            "7 at 2, 6 at 3",
            then(&[records(&[gone.clone(), Record::Begin])]),
            "refused 6 3",
        ),
        case(
            "8 at 2, 6 at the end",
            then(&[encode(std::slice::from_ref(&own))]),
            "refused 6 3",
        ),
        case(
            "8 at 2, 7 at 3",
            with_main(&[own.clone(), gone]),
            "refused 7 3",
        ),
        case("7 and 8 at 2", with_main(&[own_and_gone]), "refused 7 2"),
        case(
            "8 at 2 and 3",
            with_main(&[own.clone(), own]),
            "refused 8 2",
        ),
        case("2 before 6 at 0", vec![4, 0, 2, 0, 4], "refused 2 1"),
    ]
}
