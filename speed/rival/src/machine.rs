//! The run: one place moved in place, one record a turn.

use crate::check::MAX_RECORDS;
use crate::map::*;
use crate::told::{apart, REFUSED};
use crate::value::{comparison, entry_change, known, value};
use std::hint::cold_path;

/// A call counts for so much that 64 of them fit a u32 and 65 do not: what overflows is refused.
const CALL: u32 = u32::MAX / 65 + 1;

const TRUE: u16 = 0;
const FALSE: u16 = 1;
const IN_DO: u16 = 2;
const IN_LOOP: u16 = 3;
const CALLED: u16 = 4;

/// Slot 0 is the outermost frame, so that a push or a pop touches one slot.
pub struct Place {
    /// 0 down, 1 up.
    pub direction: usize,
    pub a: u16,
    pub b: u16,
    pub count: usize,
    pub kinds: [u16; MAX_FRAMES],
    pub labels: [u16; MAX_FRAMES],
}

impl Place {
    /// (BEGIN, first entry) of main down, no frames.
    pub fn start() -> Place {
        Place {
            direction: 0,
            a: 1,
            b: 2,
            count: 0,
            kinds: [0; MAX_FRAMES],
            labels: [0; MAX_FRAMES],
        }
    }
}

/// Steps made and the reason, 0 where all n were made. The place fits; the store's cells come first.
pub fn run(program: &mut Program, place: &mut Place, store: &mut Store, n: u32) -> (u32, u8) {
    let run = &mut *program.run;
    (run.kinds, run.labels, run.cells) = (place.kinds, place.labels, *store);
    let (left, reason) = steps(run, place, n);
    (place.kinds, place.labels, *store) = (run.kinds, run.labels, run.cells);
    (n - left, reason)
}

/// Steps not made and the reason. What changes at every step stays in registers; `a` is the way before, or its label.
#[inline(never)]
fn steps(run: &mut Run, place: &mut Place, mut left: u32) -> (u32, u8) {
    let is_call = |kind: &&u16| **kind == CALLED;
    let mut calls = CALL * run.kinds[..place.count].iter().filter(is_call).count() as u32;
    let mut way = usize::from(place.b) + MAX_RECORDS * place.direction;
    let mut a = usize::from(place.a);
    let mut count = place.count;
    let reason = loop {
        if left == 0 {
            break 0;
        }
        macro_rules! ask {
            ($section:expr) => {
                usize::from(run.map[$section][way])
            };
        }
        let yes = ask!(YES);
        macro_rules! go {
            ($from:expr, $to:expr) => {{
                (a, way) = ($from, $to);
                left -= 1;
                continue;
            }};
        }
        macro_rules! stop {
            ($reason:expr) => {{
                cold_path();
                break $reason;
            }};
        }
        macro_rules! push {
            ($kind:expr, $label:expr) => {{
                run.kinds[count] = $kind;
                run.labels[count] = $label as u16;
                count += 1;
            }};
        }
        macro_rules! pop {
            () => {{
                count = count.wrapping_sub(1);
                run.kinds[count] = 0;
                run.labels[count] = 0;
            }};
        }
        macro_rules! set {
            ($by:expr) => {{
                let at = ask!(EXPR);
                macro_rules! by {
                    ($change:expr) => {{
                        let change = $change;
                        let held = &mut run.cells[ask!(SECOND)];
                        *held = $by(*held, change);
                        go!(way, yes)
                    }};
                }
                match known(run, at) {
                    (1, change) => by!(change),
                    (0, change) => by!(change),
                    _ => {}
                }
                cold_path();
                match apart(value(run, at)) {
                    (number, REFUSED) => stop!(number as u8),
                    (change, _) => by!(change),
                }
            }};
        }
        macro_rules! leave {
            ($side:expr) => {{
                let Some(fewer) = calls.checked_sub(CALL) else {
                    stop!(30);
                };
                let label = usize::from(run.labels[count.wrapping_sub(1)]);
                assert!(label < MAX_RECORDS);
                calls = fewer;
                pop!();
                go!(label, usize::from(run.map[YES][label + $side]))
            }};
        }
        // Whether a condition holds: by the bit of a comparison; any other is called for.
        macro_rules! tested {
            () => {{
                let at = ask!(EXPR);
                let (holds, bit) = match comparison(run, at) {
                    Some(told) => told,
                    None => {
                        cold_path();
                        match apart(value(run, at)) {
                            (number, REFUSED) => stop!(number as u8),
                            (value, _) => (u32::from(value != 0), 0),
                        }
                    }
                };
                (holds >> (bit & 31)) & 1 != 0
            }};
        }
        match run.map[ACT][way] {
            CELL_ADD => set!(i32::wrapping_add),
            CELL_SUB => set!(i32::wrapping_sub),
            CELL_XOR => set!(|held, change| held ^ change),
            ENTRY => {
                let (change, cell) = apart(entry_change(run, ask!(SECOND), ask!(EXPR)));
                let operator = ask!(FIRST);
                let Some(held) = run.cells.get_mut(cell) else {
                    stop!(change as u8);
                };
                *held = match operator {
                    0 => held.wrapping_add(change),
                    1 => held.wrapping_sub(change),
                    _ => *held ^ change,
                };
                go!(way, yes)
            }
            GO_IN => {
                let Some(more) = calls.checked_add(CALL) else {
                    stop!(34);
                };
                calls = more;
                push!(CALLED, way % MAX_RECORDS);
                go!(ask!(FIRST), ask!(SECOND))
            }
            OUT_DOWN => leave!(0),
            OUT_UP => leave!(MAX_RECORDS),
            ON_IF => {
                if tested!() {
                    push!(TRUE, ask!(HEAD));
                    go!(way, yes)
                } else {
                    push!(FALSE, ask!(HEAD));
                    go!(way, ask!(NO))
                }
            }
            ON_FI => {
                let holds = tested!();
                if (run.kinds[count.wrapping_sub(1)] == TRUE) != holds {
                    stop!(31);
                }
                pop!();
                go!(way, yes)
            }
            ON_FROM => {
                let top = count.wrapping_sub(1);
                if top < run.kinds.len()
                    && run.kinds[top] == IN_LOOP
                    && usize::from(run.labels[top]) == ask!(HEAD)
                {
                    if tested!() {
                        stop!(31);
                    }
                    run.kinds[top] = IN_DO;
                    go!(way, yes)
                }
                if !tested!() {
                    stop!(31);
                }
                push!(IN_DO, ask!(HEAD));
                go!(way, yes)
            }
            ON_UNTIL => {
                if tested!() {
                    cold_path();
                    pop!();
                    go!(way, yes)
                } else {
                    run.kinds[count.wrapping_sub(1)] = IN_LOOP;
                    go!(way, ask!(NO))
                }
            }
            // No record has this act. A way that is no u16 keeps the others in full registers.
            0 => go!(way, count),
            _ => go!(way, yes),
        }
    };
    (place.direction, place.b) = (way / MAX_RECORDS, (way % MAX_RECORDS) as u16);
    (place.a, place.count) = ((a % MAX_RECORDS) as u16, count);
    (left, reason)
}
