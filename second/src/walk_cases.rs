//! The stream of walks: the document's lines, every reason, near misses of fit, refusals in every
//! call, and walks over generated programs both ways.

use crate::builder::*;
use crate::cases::{self, nested};
use crate::check::check;
use crate::damage;
use crate::expression::Expression;
use crate::generator::{self, EDGES};
use crate::lent::LentPlace;
use crate::machine::run;
use crate::misses::{large_counts, near_misses};
use crate::number::Number;
use crate::place::{Direction, Frame, Place, MAX_CALLS, MAX_FRAMES};
use crate::program::Program;
use crate::record::SetOperator;
use crate::rng::Rng;
use crate::stream::{Line, Script};
use crate::values::Operator;

const BOTH: [Direction; 2] = [Direction::Down, Direction::Up];

/// The longest run that is asked for.
const ALL: u32 = u32::MAX;

pub fn all() -> String {
    let mut script = Script::default();
    nothing_set(&mut script);
    calls_to_the_limit(&mut script);
    index_bounds(&mut script);
    sixteen_open(&mut script);
    the_example(&mut script);
    every_operator(&mut script);
    every_reason(&mut script);
    stores_of_other_lengths(&mut script);
    refused_programs(&mut script);
    all_frames(&mut script);
    misses(&mut script);
    generated(&mut script);
    script.into_text()
}

/// Every call in short forms; what each answers depends on where the desk stands.
pub fn every_call() -> Vec<Line> {
    let mut lines = vec![Line::Step, Line::Back];
    for n in [0, 1, 3, ALL] {
        lines.extend([Line::Run(n), Line::RunBack(n)]);
    }
    lines
}

/// A desk on which nothing was set: the empty file is 6, record 0, in every call.
fn nothing_set(script: &mut Script) {
    script.all(&every_call());
    for direction in BOTH {
        script.say(Line::Start(direction));
    }
}

fn calling(is_call: bool) -> Vec<Node> {
    match is_call {
        true => vec![Node::Call(1)],
        false => vec![Node::Uncall(1)],
    }
}

/// 2 CALL 1 in main; 5 CALL 1 in procedure 1; or UNCALLs.
fn endless(main: bool, one: bool) -> Tree {
    tree(0, &[], vec![calling(main), calling(one)])
}

/// 64 calls, the next is 34; 64 back, then 30.
fn calls_to_the_limit(script: &mut Script) {
    script.store(&[]);
    for (main, one) in [(true, true), (false, true), (true, false), (false, false)] {
        script.program(&endless(main, one).encode());
        for direction in BOTH {
            script.say(Line::Start(direction));
            script.all(&[Line::Run(64), Line::Step, Line::Run(100), Line::Run(0)]);
            script.all(&[Line::RunBack(63), Line::Back, Line::Back, Line::RunBack(7)]);
            script.all(&[Line::Run(ALL), Line::RunBack(ALL)]);
        }
    }
    step_by_step(script);
    sixty_four_never_reached(script);
}

fn step_by_step(script: &mut Script) {
    script.program(&endless(true, true).encode());
    script.say(Line::Start(Direction::Down));
    script.all(&vec![Line::Step; MAX_CALLS + 1]);
    script.all(&vec![Line::Back; MAX_CALLS + 1]);
}

fn after_calls(calls: usize, direction: Direction) -> LentPlace {
    let mut frames = vec![Frame::new(Frame::CALL, 5); calls - 1];
    frames.push(Frame::new(Frame::CALL, 2));
    let (a, b) = match direction {
        Direction::Down => (5, 6),
        Direction::Up => (5, 4),
    };
    LentPlace::of(&Place {
        direction,
        a,
        b,
        frames,
    })
}

/// Just after the calling record with 64 calls open: the step back is 34. With 65 it is 21.
fn sixty_four_never_reached(script: &mut Script) {
    for direction in BOTH {
        script.place(&after_calls(MAX_CALLS, direction));
        script.all(&[Line::Back, Line::RunBack(3), Line::RunBack(0), Line::Step]);
        script.all(&[Line::Back, Line::Back, Line::Run(ALL), Line::RunBack(ALL)]);
        for calls in [63, 65, 66] {
            script.place(&after_calls(calls, direction));
            script.all(&[Line::Step, Line::Back, Line::Run(1), Line::RunBack(1)]);
        }
    }
}

fn if_on(test: Expression) -> Node {
    Node::If(test, vec![Node::Skip], vec![Node::Skip], constant(0))
}

/// Index 1,023 of a length 1,024 reads and is set; 1,024 and -1 are 33.
fn index_bounds(script: &mut Script) {
    let mut store = vec![0; 1026];
    for index in [1023, 1024, -1, 0, i32::MIN, i32::MAX] {
        let read = if_on(array(0, constant(index)));
        let set = plus_at(0, constant(index), constant(-5));
        store[0] = index;
        script.store(&store);
        let by_scalar = plus(1, array(0, scalar(0)));
        for node in [read, set, by_scalar] {
            script.program(&tree(2, &[1024], vec![vec![node]]).encode());
            there_and_back(script, 3);
        }
    }
}

/// From both starts: a run, one more step, and back to the start and beyond.
fn there_and_back(script: &mut Script, steps: u32) {
    for direction in BOTH {
        script.say(Line::Start(direction));
        script.all(&[Line::Run(steps), Line::Step]);
        script.all(&[Line::RunBack(ALL), Line::Back]);
    }
}

/// 16 open constructs pass, 17 are 6.
fn sixteen_open(script: &mut Script) {
    script.store(&[]);
    for open in [16, 17] {
        let body = vec![nested(open, Node::Skip)];
        script.program(&tree(0, &[], vec![body]).encode());
        for direction in BOTH {
            script.say(Line::Start(direction));
            script.all(&vec![Line::Step; 17]);
            script.all(&[Line::Run(ALL), Line::RunBack(ALL)]);
        }
    }
}

fn the_example(script: &mut Script) {
    script.program(&example().encode());
    script.store(&[0, 0]);
    script.say(Line::Start(Direction::Down));
    script.all(&vec![Line::Step; 13]);
    script.all(&vec![Line::Back; 13]);
    script.all(&[Line::Run(5), Line::Run(7), Line::Run(0), Line::Run(1)]);
    script.all(&[Line::RunBack(5), Line::RunBack(7), Line::RunBack(0)]);
    script.all(&[Line::Run(ALL), Line::RunBack(ALL), Line::Run(12)]);
    script.say(Line::Start(Direction::Up));
    script.all(&vec![Line::Step; 13]);
    script.all(&vec![Line::Back; 13]);
    script.store(&[3, 3]);
    script.all(&[Line::Run(ALL), Line::RunBack(ALL)]);
}

/// Scalars 1 and 2 are the operands; each operator's value is added to a cell of array 0 of its own.
fn every_operator(script: &mut Script) {
    let applied = |operator: Operator| {
        let value = binary(operator, scalar(1), scalar(2));
        vec![plus_at(0, constant(i32::from(operator.code())), value)]
    };
    let bodies: Vec<Vec<Node>> = Operator::ALL.into_iter().map(applied).collect();
    // Division has a program of its own, so that a zero divisor does not hide the rest.
    let (divisions, others): (Vec<_>, Vec<_>) = (0..16).partition(|at| (4..=5).contains(at));
    for chosen in [others, divisions] {
        let body = chosen.into_iter().flat_map(|at: usize| bodies[at].clone());
        let body = body.collect();
        script.program(&tree(3, &[16], vec![body]).encode());
        for (left, right) in operands() {
            let mut store = vec![0; 19];
            (store[1], store[2]) = (left, right);
            script.store(&store);
            script.say(Line::Start(Direction::Down));
            script.all(&[Line::Run(ALL), Line::RunBack(ALL)]);
        }
    }
}

/// The document's pairs, and pairs of values at which something turns.
fn operands() -> Vec<(i32, i32)> {
    let mut pairs = vec![
        (-7, 2),
        (7, -2),
        (i32::MAX, 1),
        (65_536, 65_536),
        (-8, 3),
        (i32::MIN, -1),
        (0, 0),
    ];
    let mut rng = Rng::new(11);
    for _ in 0..25 {
        pairs.push((*rng.pick(&EDGES), *rng.pick(&EDGES)));
    }
    pairs
}

/// A program with the stores that it is walked on, from both starts.
struct Walked {
    node: Node,
    stores: Vec<[i32; 4]>,
}

/// Two scalars and two arrays of length 1; cells 0 and 1 are the scalars.
fn every_reason(script: &mut Script) {
    for walked in closings().into_iter().chain(faults()) {
        script.program(&tree(2, &[1, 1], vec![vec![walked.node]]).encode());
        for store in walked.stores {
            script.store(&store);
            there_and_back(script, 9);
        }
    }
    at_the_second_part(script);
}

/// 31 at FI and FROM down, IF and UNTIL up.
fn closings() -> Vec<Walked> {
    let skip = || vec![Node::Skip];
    let truths = || vec![[0, 0, 0, 0], [0, -1, 0, 0], [9, 0, 0, 0], [1, 1, 0, 0]];
    let once = Node::From(constant(1), skip(), vec![plus(0, constant(1))], scalar(0));
    let nodes = [
        Node::If(scalar(0), skip(), skip(), scalar(1)),
        Node::From(scalar(0), skip(), skip(), scalar(1)),
        Node::If(scalar(0), vec![plus(1, constant(1))], skip(), scalar(1)),
        Node::If(scalar(0), skip(), vec![plus(1, constant(1))], scalar(1)),
        once,
    ];
    nodes
        .into_iter()
        .map(|node| Walked {
            node,
            stores: truths(),
        })
        .collect()
}

/// 32 and 33 in order of evaluation, and before 31.
fn faults() -> Vec<Walked> {
    let divided = || binary(Operator::Divide, constant(1), scalar(0));
    let rest = || binary(Operator::Remainder, scalar(1), scalar(0));
    let beyond = || array(1, scalar(1));
    let within = |left, right| if_on(binary(Operator::Add, left, right));
    let skip = || vec![Node::Skip];
    let nodes = vec![
        if_on(divided()),
        if_on(rest()),
        if_on(binary(Operator::Both, constant(0), divided())),
        if_on(binary(Operator::Either, constant(1), rest())),
        if_on(beyond()),
        if_on(array(1, array(0, scalar(1)))),
        within(divided(), beyond()),
        within(beyond(), divided()),
        within(scalar(1), rest()),
        if_on(array(1, divided())),
        plus_at(0, scalar(1), divided()),
        plus_at(0, divided(), beyond()),
        plus_at(0, constant(0), rest()),
        plus_at(0, beyond(), constant(4)),
        Node::Set(to_array(SetOperator::Xor, 1, scalar(1), scalar(0))),
        Node::Set(to_array(
            SetOperator::Minus,
            1,
            scalar(1),
            array(0, scalar(1)),
        )),
        Node::If(scalar(0), skip(), skip(), divided()),
        Node::From(divided(), skip(), skip(), beyond()),
        Node::From(constant(1), skip(), skip(), rest()),
        Node::From(divided(), skip(), skip(), constant(1)),
        Node::From(beyond(), skip(), skip(), constant(1)),
        Node::If(beyond(), skip(), skip(), constant(0)),
        Node::If(constant(1), skip(), skip(), beyond()),
        Node::If(constant(0), skip(), skip(), beyond()),
    ];
    let stores = || {
        vec![
            [0, 0, 0, 0],
            [2, 0, 0, 0],
            [0, 1, 0, 0],
            [2, -1, 0, 0],
            [1, i32::MIN, 7, -7],
        ]
    };
    nodes
        .into_iter()
        .map(|node| Walked {
            node,
            stores: stores(),
        })
        .collect()
}

/// 2 FROM scalar 0, 3 SKIP, 4 LOOP, 5 SKIP, 6 UNTIL scalar 1: the way come decides, not the value.
fn at_the_second_part(script: &mut Script) {
    let skip = || vec![Node::Skip];
    let looping = Node::From(scalar(0), skip(), skip(), scalar(1));
    script.program(&tree(2, &[], vec![vec![looping]]).encode());
    let second = vec![Frame::new(Frame::SECOND, 2)];
    let first = vec![Frame::new(Frame::FIRST, 2)];
    let places = [
        (Direction::Down, 5, 2, &second),
        (Direction::Up, 5, 6, &second),
        (Direction::Down, 6, 5, &second),
        (Direction::Up, 2, 5, &second),
        (Direction::Down, 3, 6, &first),
        (Direction::Up, 3, 2, &first),
    ];
    for (direction, a, b, frames) in places {
        for store in [[0, 0], [1, 0], [0, 1], [5, -5]] {
            script.store(&store);
            script.place(&LentPlace::of(&Place {
                direction,
                a,
                b,
                frames: frames.clone(),
            }));
            script.all(&[Line::Step, Line::Back, Line::Back, Line::Step]);
            script.all(&[Line::Run(9), Line::RunBack(9)]);
        }
    }
}

/// 20 in every call but a start, before 21.
fn stores_of_other_lengths(script: &mut Script) {
    script.program(&example().encode());
    for cells in [0, 1, 3, 4, 40] {
        script.store(&vec![7; cells]);
        script.place(&LentPlace::blank());
        script.all(&every_call());
        script.say(Line::Start(Direction::Down));
        script.all(&every_call());
    }
    script.program(&endless(true, true).encode());
    script.store(&[0]);
    script.say(Line::Start(Direction::Up));
    script.all(&every_call());
}

/// 1 to 8 with their record in every call, whatever the place and the store are.
fn refused_programs(script: &mut Script) {
    for file in refused_files() {
        script.program(&file);
        script.store(&[7, -7]);
        script.place(&LentPlace::of(&Place {
            direction: Direction::Down,
            a: 1,
            b: 2,
            frames: vec![],
        }));
        script.all(&every_call());
        for direction in BOTH {
            script.say(Line::Start(direction));
        }
        script.all(&[Line::Run(0), Line::Back]);
    }
}

/// For each number the shortest stated files, at most two with the same record; one file for 1.
pub fn refused_files() -> Vec<Vec<u8>> {
    let mut stated = cases::all();
    stated.sort_by_key(|case| case.file.len());
    let mut files = vec![];
    for number in 1..=8 {
        let start = format!("refused {number} ");
        let mut answers: Vec<&str> = vec![];
        for case in stated.iter().filter(|case| case.answer.starts_with(&start)) {
            let alike = answers.iter().filter(|answer| **answer == case.answer);
            let long = case.file.len() > 400 && !answers.is_empty();
            if alike.count() < 2 && answers.len() < 6 && !long {
                answers.push(&case.answer);
                files.push(case.file.clone());
            }
        }
    }
    files.push(own_array());
    files
}

/// x[i] and x[j] of one array meet in procedure 1: 8 at record 6.
fn own_array() -> Vec<u8> {
    let own = plus_at(0, scalar(0), array(0, scalar(1)));
    let skip = || vec![Node::Skip];
    let one = vec![Node::If(scalar(0), vec![own], skip(), scalar(0))];
    tree(2, &[9], vec![skip(), one]).encode()
}

/// Main and procedure 1 call 1 under 16 constructs: 1,104 frames.
pub fn all_frames_tree() -> Tree {
    let body = vec![nested(16, Node::Call(1))];
    tree(1, &[], vec![body.clone(), body])
}

fn all_frames(script: &mut Script) {
    let file = all_frames_tree().encode();
    let program = check(&file).expect("sound");
    script.program(&file);
    script.store(&[-1]);
    for direction in BOTH {
        script.say(Line::Start(direction));
        script.say(Line::Run(1102));
        script.all(&vec![Line::Step; 3]);
        assert_eq!(script.desk.place.used().len(), MAX_FRAMES);
        if direction == Direction::Down {
            let deepest = script.desk.place.place().expect("it fits");
            full_misses(script, &program, &deepest);
            script.place(&LentPlace::of(&deepest));
        }
        script.all(&[Line::Back, Line::Step, Line::RunBack(ALL), Line::Run(ALL)]);
    }
}

/// With every slot used: one frame over the limit, and the outermost frame one off.
fn full_misses(script: &mut Script, program: &Program, deepest: &Place) {
    let mut over = LentPlace::of(deepest);
    over.count = 1105;
    script.place(&over);
    script.all(&[Line::Step, Line::Back]);
    let mut outermost = LentPlace::of(deepest);
    outermost.slots[MAX_FRAMES - 1].kind ^= 1;
    script.place(&outermost);
    script.say(Line::Step);
    let mut turned = LentPlace::of(&deepest.clone().turned());
    script.place(&turned);
    script.say(Line::Run(2));
    turned.slots[0].label = program.records.len() as u16;
    script.place(&turned);
    script.say(Line::Step);
}

/// 2 IF, 3 IF, 4 CALL 1, 5 ELSE, 6 SKIP, 7 FI, 8 ELSE, 9 UNCALL 2, 10 FI, 11 END;
/// 12 BEGIN, 13 FROM, 14 CALL 1, 15 LOOP, 16 UNCALL 1, 17 UNTIL, 18 END; 19 BEGIN, 20 SKIP, 21 END.
pub fn calling_tree() -> Tree {
    let skip = || vec![Node::Skip];
    let inner = Node::If(constant(1), vec![Node::Call(1)], skip(), constant(1));
    let outer = Node::If(scalar(0), vec![inner], vec![Node::Uncall(2)], scalar(0));
    let one = Node::From(
        constant(1),
        vec![Node::Call(1)],
        vec![Node::Uncall(1)],
        constant(1),
    );
    tree(1, &[], vec![vec![outer], vec![one], skip()])
}

/// Places of `calling_tree`, each fitting, most of them never reached.
pub fn calling_places() -> Vec<Place> {
    let place = |direction, a, b, frames: &[(u16, u16)]| Place {
        direction,
        a,
        b,
        frames: frames.iter().map(|&(k, l)| Frame::new(k, l)).collect(),
    };
    let (down, up) = BOTH.into();
    vec![
        place(down, 1, 2, &[]),
        place(up, 3, 2, &[(0, 2)]),
        place(down, 3, 6, &[(1, 3), (0, 2)]),
        place(down, 9, 10, &[(1, 2)]),
        place(up, 21, 20, &[(4, 9), (1, 2)]),
        place(down, 12, 13, &[(4, 4), (0, 3), (0, 2)]),
        place(
            down,
            17,
            16,
            &[(3, 13), (4, 14), (2, 13), (4, 4), (0, 3), (0, 2)],
        ),
        place(
            up,
            18,
            17,
            &[(4, 16), (3, 13), (4, 16), (3, 13), (4, 4), (0, 3), (0, 2)],
        ),
    ]
}

/// 2 CALL 1, 3 UNCALL 2, 4 CALL 1, 5 END; 6 BEGIN, 7 CALL 2, 8 UNCALL 1, 9 SKIP, 10 END;
/// 11 BEGIN, 12 SKIP, 13 CALL 2, 14 END: no construct hides a call in the wrong procedure.
pub fn plain_tree() -> Tree {
    let main = vec![Node::Call(1), Node::Uncall(2), Node::Call(1)];
    let one = vec![Node::Call(2), Node::Uncall(1), Node::Skip];
    tree(1, &[], vec![main, one, vec![Node::Skip, Node::Call(2)]])
}

/// Places of `plain_tree`.
pub fn plain_places() -> Vec<Place> {
    let place = |direction, a, b, calls: &[u16]| Place {
        direction,
        a,
        b,
        frames: calls
            .iter()
            .map(|&label| Frame::new(Frame::CALL, label))
            .collect(),
    };
    let (down, up) = BOTH.into();
    vec![
        place(down, 2, 3, &[]),
        place(down, 6, 7, &[2]),
        place(up, 14, 13, &[3]),
        place(up, 12, 11, &[7, 4]),
        place(down, 9, 10, &[8, 8, 2]),
        place(down, 11, 12, &[13, 7, 8, 4]),
    ]
}

/// Each fitting place, then each near miss of it, with a step forward and one back.
fn misses(script: &mut Script) {
    misses_of(script, &calling_tree(), &calling_places());
    misses_of(script, &plain_tree(), &plain_places());
    script.program(&calling_tree().encode());
    for miss in large_counts(&calling_places()[2]) {
        script.place(&miss);
        script.all(&[Line::Step, Line::Back]);
    }
}

fn misses_of(script: &mut Script, tree: &Tree, places: &[Place]) {
    let file = tree.encode();
    let program = check(&file).expect("sound");
    let records = program.records.len() as u16;
    script.program(&file);
    for (at, place) in places.iter().enumerate() {
        assert!(place.fits(&program), "{place:?}");
        script.store(&[at as i32 % 3 - 1]);
        script.place(&LentPlace::of(place));
        script.all(&[Line::Step, Line::Back, Line::Back, Line::Step]);
        for (number, miss) in near_misses(place, records).iter().enumerate() {
            script.place(miss);
            script.all(&[Line::Step, Line::Back]);
            if number % 5 == 0 {
                script.all(&[Line::Run(0), Line::RunBack(2)]);
            }
        }
    }
}

/// Longer files would only fill space.
const MAX_MADE: usize = 600;

pub fn small_program(rng: &mut Rng) -> Vec<u8> {
    loop {
        let file = generator::program(rng).encode();
        if file.len() <= MAX_MADE {
            return file;
        }
    }
}

fn generated(script: &mut Script) {
    let mut rng = Rng::new(12);
    for _ in 0..300 {
        let file = small_program(&mut rng);
        let program = check(&file).expect("the generator makes sound programs");
        script.program(&file);
        let store = generator::store(&mut rng, program.cells());
        for direction in BOTH {
            script.store(&store);
            script.say(Line::Start(direction));
            whole_run(script, &program);
            wander(script, &mut rng, 14);
        }
        for _ in 0..3 {
            from_anywhere(script, &mut rng, &program);
        }
        damaged(script, &mut rng, &program);
    }
}

/// To where it stops and back, where it stops soon.
fn whole_run(script: &mut Script, program: &Program) {
    let place = script.desk.place.place().expect("it fits");
    let mut store = script.desk.store.clone();
    let ran = run(program, &place, &mut store, 600);
    // All 1,104 frames have their own lines.
    if ran.place.frames.len() > 200 {
        return;
    }
    match ran.reason {
        Some(_) => script.all(&[Line::Run(ALL), Line::RunBack(ran.steps)]),
        None => script.all(&[Line::Run(600), Line::RunBack(600)]),
    }
}

/// Mostly forward, single steps and short runs; a refused wish stays where it is.
fn wander(script: &mut Script, rng: &mut Rng, wishes: usize) {
    for _ in 0..wishes {
        let n = rng.below(12) as u32;
        let wish = match rng.below(10) {
            0..=4 => Line::Step,
            5 | 6 => Line::Back,
            7 | 8 => Line::Run(n),
            _ => Line::RunBack(n),
        };
        script.say(wish);
    }
}

/// Any fitting place, both ways.
fn from_anywhere(script: &mut Script, rng: &mut Rng, program: &Program) {
    let place = generator::place(rng, program);
    let store = generator::store(rng, program.cells());
    if place.frames.len() > 200 {
        return;
    }
    script.store(&store);
    script.place(&LentPlace::of(&place));
    script.all(&[Line::Step, Line::Back, Line::Back, Line::Step]);
    script.all(&[Line::RunBack(5), Line::Run(9)]);
}

/// A place with one raw field changed, then with a store too long.
fn damaged(script: &mut Script, rng: &mut Rng, program: &Program) {
    for _ in 0..3 {
        let sound = LentPlace::of(&generator::place(rng, program));
        let damaged = damage::lent_place(rng, &sound);
        if damaged.used().len() > 200 {
            continue;
        }
        script.place(&damaged);
        script.all(&[Line::Step, Line::Back]);
    }
    if rng.percent(10) {
        let longer = vec![1; program.cells() + 1];
        script.store(&longer);
        let refused = script.says(Line::Step, Number::StoreLength.value());
        assert!(refused, "a store of another length is 20");
    }
}
