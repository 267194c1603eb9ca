//! Sheets for the calls at random: in order, or with faults that are each aimed at one refusal.

use crate::driver::line::Cell;
use crate::driver::random_line::contents;
use crate::generate::{self, Draft};
use crate::mix::{garbage, of_sizes};
use crate::random::Random;
use crate::sheet::MOST;

/// A sheet in order; now and then its counts are all 1 or 32.
pub fn in_order(random: &mut Random) -> Draft {
    if random.once_in(64) {
        let [letters, states, size] = [(); 3].map(|()| random.pick(&[1, MOST]));
        of_sizes(random, letters, states, size)
    } else {
        generate::sheet(random)
    }
}

pub fn sheet(random: &mut Random) -> Vec<u8> {
    match random.below(16) {
        0..=3 => faulty(random),
        4 if random.once_in(32) => contents(random, u8::LONG),
        4 => garbage(random),
        _ => in_order(random).pack(),
    }
}

/// Two sheets, one or both of them at fault.
pub fn faulty_pair(random: &mut Random) -> (Vec<u8>, Vec<u8>) {
    match random.below(8) {
        0..=2 => (faulty(random), in_order(random).pack()),
        3..=6 => (in_order(random).pack(), faulty(random)),
        _ => (sheet(random), sheet(random)),
    }
}

/// A sheet with one fault or several: each of refusals 1 to 6 is put where it would be found.
pub fn faulty(random: &mut Random) -> Vec<u8> {
    let mut draft = in_order(random);
    let mut faults = [false; 7];
    faults[random.between(1, 6)] = true;
    while random.once_in(3) {
        faults[random.between(1, 6)] = true;
    }
    if faults[5] {
        wrong_next_state(random, &mut draft);
    }
    let states = draft.states();
    if faults[6] {
        let (_, marks) = &mut draft.progress[random.below(states)];
        let at = random.below(marks.len());
        marks[at] = wrong(random, 2);
    }
    let mut bytes = draft.pack();
    for (fault, at) in [(4, 2 + random.below(states)), (3, 1), (2, 0)] {
        if faults[fault] {
            bytes[at] = if random.once_in(4) { 0 } else { wrong(random, MOST + 1) };
        }
    }
    if faults[1] {
        wrong_length(random, &mut bytes, states);
    }
    bytes
}

/// A byte that is not below the limit: the limit itself, the largest, or any.
fn wrong(random: &mut Random, limit: usize) -> u8 {
    let any = random.between(limit, 255);
    random.pick(&[limit, 255, any]) as u8
}

fn wrong_next_state(random: &mut Random, draft: &mut Draft) {
    let states = draft.states();
    let (next, limit) = if random.once_in(3) {
        (&mut draft.leading, states)
    } else {
        let (next, marks) = &mut draft.progress[random.below(states)];
        (next, marks.len())
    };
    let at = random.below(next.len());
    next[at] = wrong(random, limit);
}

fn wrong_length(random: &mut Random, bytes: &mut Vec<u8>, states: usize) {
    match random.below(8) {
        0..=2 => bytes.truncate(bytes.len() - 1),
        3 => bytes.truncate(random.below(2)),
        4 => bytes.truncate(random.between(2, 1 + states)),
        5 => bytes.truncate(random.below(bytes.len())),
        _ => {
            let more = random.between(1, 9);
            bytes.extend(random.bytes(more));
        }
    }
}
