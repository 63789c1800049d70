//! The streams of walks and sessions: always the same, every number met, and each answer keeps
//! what document 01 promises of its call.
#![forbid(unsafe_code)]

use second::calls;
use second::check::check;
use second::lent::LentPlace;
use second::place::{Direction, Frame, Place, MAX_FRAMES};
use second::raw_session::{malformed, other_stores, unfit, RawSession};
use second::stream::{Desk, Line};
use second::vectors::{from_hex, to_hex, Family};
use std::collections::BTreeSet;
use std::sync::OnceLock;

/// Number, record, steps, and the place and store as they are told.
struct Told {
    number: u8,
    record: usize,
    steps: u32,
    state: String,
}

fn told(answer: &str) -> Told {
    let mut words = answer.splitn(4, ' ');
    let mut next = || words.next().expect("four parts");
    Told {
        number: next().parse().expect("a number"),
        record: next().parse().expect("a record"),
        steps: next().parse().expect("steps"),
        state: next().to_string(),
    }
}

fn answer(desk: &mut Desk, line: &Line) -> String {
    let answer = desk.take(line).expect("a slot that is there");
    answer.expect("a line with an answer")
}

/// A family's cases, made once.
fn cases(family: Family) -> &'static str {
    static WALKS: OnceLock<String> = OnceLock::new();
    static SESSIONS: OnceLock<String> = OnceLock::new();
    let made = match family {
        Family::Walk => &WALKS,
        Family::Session => &SESSIONS,
        _ => unreachable!("no stream"),
    };
    made.get_or_init(|| family.cases())
}

/// The lines that have an answer, with the desk before each.
fn each(family: Family, mut look: impl FnMut(&Desk, &Line, &str)) {
    let mut desk = Desk::default();
    for text in cases(family).lines() {
        let line = Line::parse(text).expect("a command line");
        let before = desk.clone();
        if let Some(said) = desk.take(&line).expect("a slot that is there") {
            look(&before, &line, &said);
        }
    }
}

/// The same again, lines that read back as they are, and as many answers as there are calls.
fn is_a_sound_stream(family: Family) {
    let made = cases(family);
    assert_eq!(made, family.cases());
    for text in made.lines() {
        let line = Line::parse(text).expect("a command line");
        assert_eq!(line.to_string(), text);
    }
    let mut one_by_one = String::new();
    each(family, |_, _, said| one_by_one += &format!("{said}\n"));
    assert_eq!(family.answers(made), Ok(one_by_one.clone()));
    for text in [made, &one_by_one] {
        assert!(text.len() < 3_000_000 && text.is_ascii());
        assert!(!text.contains("  ") && !text.contains(" \n"));
    }
}

#[test]
fn walks_are_the_same_each_time_and_small() {
    is_a_sound_stream(Family::Walk);
}

#[test]
fn walks_meet_every_number_in_every_call() {
    let mut met = BTreeSet::new();
    each(Family::Walk, |_, line, said| {
        let name = line.to_string().remove(0);
        met.insert((name, told(said).number));
    });
    for name in ['f', 'b', 'r', 'q'] {
        for number in [0, 1, 2, 3, 4, 5, 6, 7, 8, 20, 21, 30, 31, 32, 33, 34] {
            assert!(met.contains(&(name, number)), "{name} {number}");
        }
    }
    for number in 0..=8 {
        assert!(met.contains(&('s', number)), "s {number}");
    }
}

/// The kind of the record that a single step executes, and the direction it is executed in.
fn executed(desk: &Desk, line: &Line) -> Option<(u16, Direction)> {
    let program = check(&desk.file).ok()?;
    let place = match line {
        Line::Step => desk.place.place()?,
        Line::Back => desk.place.place()?.turned(),
        _ => return None,
    };
    let fits = place.fits(&program);
    fits.then(|| (program.record(place.b).kind(), place.direction))
}

/// Every record in both directions, with each way that a step at it can go.
#[test]
fn walks_meet_every_reason_at_every_record() {
    let mut met = BTreeSet::new();
    each(Family::Walk, |before, line, said| {
        if let Some((kind, direction)) = executed(before, line) {
            met.insert((kind, direction.code(), told(said).number));
        }
    });
    let mut expected = BTreeSet::from([(2, 1, 0), (2, 1, 30), (3, 0, 0), (3, 0, 30)]);
    for direction in [0, 1] {
        for kind in [4, 5, 7, 8, 10] {
            expected.extend([0, 32, 33].map(|number| (kind, direction, number)));
        }
        for kind in [11, 12] {
            expected.extend([0, 34].map(|number| (kind, direction, number)));
        }
        expected.insert((13, direction, 0));
    }
    expected.extend([(5, 1, 31), (7, 0, 31), (8, 0, 31), (10, 1, 31)]);
    // Stores of another length are asked before the place.
    met.retain(|(_, _, number)| *number != 20);
    assert_eq!(met, expected);
}

#[test]
fn walks_keep_the_promises_of_each_call() {
    each(Family::Walk, |before, line, said| {
        let told = told(said);
        assert!(told.record == 0 || (1..=8).contains(&told.number), "{said}");
        if told.steps == 0 && !matches!(line, Line::Start(_)) {
            assert_eq!(told.state, before.state(), "{line}");
        }
        match line {
            Line::Start(_) => {
                let blank = told.state.starts_with("0 0 0 0 |");
                assert_eq!(blank, told.number != 0, "{said}");
                let cells = |state: &str| state.split('|').nth(1).map(str::to_string);
                assert_eq!(cells(&told.state), cells(&before.state()));
            }
            Line::Step | Line::Back => assert_eq!(told.steps == 1, told.number == 0),
            Line::Run(n) | Line::RunBack(n) => {
                let whole = told.steps == *n && told.number == 0;
                assert!(whole || (told.steps < *n && told.number >= 30) || told.steps == 0);
            }
            _ => unreachable!("no other line of a walk has an answer"),
        }
    });
}

#[test]
fn every_move_of_the_walks_is_undone_by_the_opposite_one() {
    let mut undone = 0;
    each(Family::Walk, |before, line, said| {
        let steps = told(said).steps;
        let opposite = match line {
            Line::Step => Line::Back,
            Line::Back => Line::Step,
            Line::Run(_) => Line::RunBack(steps),
            Line::RunBack(_) => Line::Run(steps),
            _ => return,
        };
        if steps > 0 {
            let mut desk = before.clone();
            answer(&mut desk, line);
            let back = told(&answer(&mut desk, &opposite));
            assert_eq!((back.number, back.steps), (0, steps));
            assert_eq!(&desk, before, "{line}");
            undone += 1;
        }
    });
    assert!(undone > 8_000, "{undone}");
}

#[test]
fn every_run_of_the_walks_is_that_many_single_steps() {
    each(Family::Walk, |before, line, said| {
        let single = match line {
            Line::Run(_) => Line::Step,
            Line::RunBack(_) => Line::Back,
            _ => return,
        };
        let ran = told(said);
        if ran.steps > 40 {
            return;
        }
        let mut desk = before.clone();
        for _ in 0..ran.steps {
            assert_eq!(told(&answer(&mut desk, &single)).number, 0);
        }
        assert_eq!(desk.state(), ran.state);
        if ran.number != 0 {
            assert_eq!(told(&answer(&mut desk, &single)).number, ran.number);
        }
    });
}

#[test]
fn walks_hold_what_the_rules_turn_on() {
    let mut full = 0;
    let mut unfit = 0;
    let mut rubbish = 0;
    let mut back_34 = 0;
    each(Family::Walk, |_, line, said| {
        let words: Vec<&str> = said.split(' ').collect();
        full += u32::from(words[0] != "21" && words[6] == MAX_FRAMES.to_string());
        unfit += u32::from(words[0] == "21");
        rubbish += u32::from(words.contains(&"x"));
        back_34 += u32::from(words[0] == "34" && *line == Line::Back);
    });
    assert!(full >= 4 && unfit > 2_000 && rubbish > 300 && back_34 >= 2);
}

#[test]
fn answers_of_a_walk_as_document_01_has_them() {
    let example = to_hex(&second::builder::example().encode());
    let cases = format!(
        "p {example}\nc 0 0\ns 0\nr 12\nf\nq 13\nl 0 3 4 1 2 3\nf\nl 0 3 4 1 2 3\nx 2 4 7\nf\n\
         l 2 3 4 3 2 3\nb\nc 1\nf\np\nf\ns 1\n"
    );
    let answers = "\
        0 0 0 0 1 2 0 |\n\
        0 0 12 0 7 8 0 | 0=3 1=3\n\
        30 0 0 0 7 8 0 | 0=3 1=3\n\
        30 0 12 0 1 2 0 |\n\
        0 0 1 0 4 7 1 2 3 | 0=1\n\
        21 0 0 0 3 4 1 2 3 x 2 4 7 | 0=1\n\
        21 0 0 2 3 4 3 2 3 0 0 0 0 | 0=1\n\
        20 0 0 2 3 4 3 2 3 0 0 0 0 | 0=1\n\
        6 0 0 2 3 4 3 2 3 0 0 0 0 | 0=1\n\
        6 0 0 0 0 0 0 | 0=1\n";
    assert_eq!(Family::Walk.answers(&cases), Ok(answers.to_string()));
}

#[test]
fn a_line_that_is_no_command_of_walks_is_told() {
    for line in [
        "",
        "p 0",
        "p 0G",
        "p ",
        "p 00 00",
        "c 1 x",
        "c ",
        "c 2147483648",
        "l 0 1 2",
        "l 256 1 2 0",
        "l 0 1 2 0 1 2",
        "l 0 1 2 1 1",
        "l 0 1 2 65536",
        "x 0 1",
        "x 1104 1 1",
        "x 0 65536 1",
        "s 2",
        "s",
        "f 1",
        "b 1",
        "r",
        "r 4294967296",
        "r -1",
        "q",
        "z",
        "n 1",
        "o",
        "v 1 1",
        "f ",
    ] {
        let cases = format!("s 0\n{line}\n");
        assert_eq!(Family::Walk.answers(&cases), Err(2), "{line}");
    }
}

#[test]
fn sessions_are_the_same_each_time_and_small() {
    is_a_sound_stream(Family::Session);
}

#[test]
fn sessions_meet_every_number_of_reading_and_saving() {
    let mut met = BTreeSet::new();
    let mut read = 0;
    each(Family::Session, |_, line, said| {
        let name = line.to_string().remove(0);
        let number: u8 = said
            .split(' ')
            .next()
            .expect("a word")
            .parse()
            .expect("a number");
        met.insert((name, number));
        read += u32::from(name == 'o');
    });
    for number in [0, 1, 2, 3, 4, 5, 6, 7, 8, 20, 21] {
        assert!(met.contains(&('o', number)), "o {number}");
        assert!(met.contains(&('v', number)), "v {number}");
    }
    assert!(met.contains(&('o', 22)) && met.contains(&('v', 23)));
    assert!(!met.contains(&('o', 23)) && !met.contains(&('v', 22)));
    assert!(read > 4_000, "{read}");
}

/// A refused reading gives the blank place and leaves the store; an accepted file is the only one.
#[test]
fn readings_of_the_sessions_keep_their_promises() {
    let mut accepted = 0;
    each(Family::Session, |before, line, said| {
        let Line::Read(file) = line else { return };
        let words: Vec<&str> = said.splitn(3, ' ').collect();
        let mut desk = before.clone();
        answer(&mut desk, line);
        assert_eq!(words[2], desk.state());
        if words[0] != "0" {
            assert_eq!(
                (&desk.store, &desk.place),
                (&before.store, &LentPlace::blank())
            );
            return;
        }
        let saved = answer(&mut desk, &Line::Save(file.len() + 1, 200));
        assert_eq!(saved, format!("0 0 {} {}c8", file.len(), to_hex(file)));
        accepted += 1;
    });
    assert!(accepted > 500, "{accepted}");
}

/// A refused save writes nothing; what was written reads back, and the rest of the buffer stays.
#[test]
fn saves_of_the_sessions_keep_their_promises() {
    each(Family::Session, |before, line, said| {
        let Line::Save(length, fill) = line else {
            return;
        };
        let words: Vec<&str> = said.split(' ').collect();
        let written: usize = words[2].parse().expect("the bytes written");
        let buffer = from_hex(words.get(3).copied().unwrap_or("")).expect("the buffer");
        assert_eq!(buffer.len(), *length);
        assert!(buffer[written..].iter().all(|byte| byte == fill));
        assert_eq!(written == 0, words[0] != "0");
        if written > 0 {
            let mut desk = before.clone();
            desk.store.fill(-3);
            answer(&mut desk, &Line::Read(buffer[..written].to_vec()));
            assert_eq!(&desk, before);
        }
    });
}

#[test]
fn answers_of_a_session_as_document_01_has_them() {
    let example = to_hex(&second::builder::example().encode());
    let cases = format!(
        "p {example}\nc 1 -2\nl 0 3 4 1 2 3\nv 30 238\nv 27 238\nv 0 1\nn 2\n\
         o 1000200000000300040001000200030004002100\n\
         o 10002000000003000400010002000300\n\
         o 100020000000030004000100020003000c00210001000000feffffff\n\
         n 3\no 100020000000030004000100020003000c00210001000000feffffff\no\n"
    );
    let answers = "\
        0 0 28 100020000000030004000100020003000c00210001000000feffffffeeee\n\
        23 0 0 eeeeeeeeeeeeeeeeeeeeeeeeeeeeeeeeeeeeeeeeeeeeeeeeeeeeee\n\
        23 0 0\n\
        20 0 0 0 0 0 |\n\
        22 0 0 0 0 0 |\n\
        0 0 0 3 4 1 2 3 | 0=1 1=-2\n\
        20 0 0 0 0 0 |\n\
        22 0 0 0 0 0 |\n";
    assert_eq!(Family::Session.answers(&cases), Ok(answers.to_string()));
}

#[test]
fn a_line_that_is_no_command_of_sessions_is_told() {
    for line in [
        "o 0",
        "o ",
        "v 1",
        "v 1 256",
        "v 100001 0",
        "n",
        "n -1",
        "n 100001",
        "w",
    ] {
        let cases = format!("s 0\n{line}\n");
        assert_eq!(Family::Session.answers(&cases), Err(2), "{line}");
    }
}

/// The changes of `raw_session` are what they are named after.
#[test]
fn each_change_of_a_session_file_has_its_number() {
    let file = second::builder::example().encode();
    let place = LentPlace::of(&Place {
        direction: Direction::Down,
        a: 3,
        b: 4,
        frames: vec![Frame::new(Frame::FIRST, 3)],
    });
    let sound = RawSession::of(&place, &[1, -2]);
    let number = |raw: &RawSession| {
        let answer = calls::read(&file, &raw.encode(), &mut [0, 0]);
        answer.refusal.map_or(0, |refusal| refusal.number.value())
    };
    assert_eq!(number(&sound), 0);
    let lists = [
        (22, malformed(&sound)),
        (20, other_stores(&sound)),
        (21, unfit(&sound)),
    ];
    for (expected, list) in lists {
        for raw in list {
            assert_eq!(number(&raw), expected, "{raw:?}");
        }
    }
}
