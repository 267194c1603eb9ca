//! Sheets at random: of all sizes, with tables of several shapes, and pairs of sheets that are nearly alike.

use crate::random::Random;
use crate::sheet::MOST;

/// A sheet that is not packed yet.
#[derive(Clone)]
pub struct Draft {
    pub letters: usize,
    pub leading: Vec<u8>,
    /// By leading state: next states, marks.
    pub progress: Vec<(Vec<u8>, Vec<u8>)>,
}

/// How the next states of a table are chosen.
#[derive(Clone, Copy)]
pub enum Shape {
    /// Any state.
    Free,
    /// The first letter goes round all states; the others go on, stay, or go back to 0.
    Cycle,
    /// Each letter permutes the states.
    Permutation,
    /// One letter of each state goes on to the next, the others go back to 0: long words are needed to come far.
    Lock,
    /// No letter goes back to a smaller state.
    Rising,
}

pub const SHAPES: [Shape; 5] = [Shape::Free, Shape::Cycle, Shape::Permutation, Shape::Lock, Shape::Rising];

impl Draft {
    pub fn pack(&self) -> Vec<u8> {
        let mut bytes = vec![self.letters as u8, self.progress.len() as u8];
        bytes.extend(self.progress.iter().map(|(_, marks)| marks.len() as u8));
        bytes.extend(&self.leading);
        for (next, marks) in &self.progress {
            bytes.extend(next);
            bytes.extend(marks);
        }
        bytes
    }

    pub fn states(&self) -> usize {
        self.progress.len()
    }
}

/// A count from 1 to 32, mostly small.
pub fn count(random: &mut Random) -> usize {
    match random.below(16) {
        0..=7 => random.between(1, 3),
        8..=12 => random.between(1, 7),
        13..=14 => random.between(1, MOST),
        _ => MOST,
    }
}

pub fn table(random: &mut Random, shape: Shape, letters: usize, states: usize) -> Vec<u8> {
    let mut next = vec![0; letters * states];
    for letter in 0..letters {
        let mut order: Vec<usize> = (0..states).collect();
        random.shuffle(&mut order);
        for state in 0..states {
            let on = (state + 1) % states;
            next[state * letters + letter] = match shape {
                Shape::Free => random.below(states),
                Shape::Cycle if letter == 0 => on,
                Shape::Cycle => random.pick(&[on, state, 0]),
                Shape::Permutation => order[state],
                Shape::Lock if letter == state % 3 % letters => on,
                Shape::Lock => 0,
                Shape::Rising => random.between(state, states - 1),
            } as u8;
        }
    }
    next
}

/// Marks: at random, none, all, one alone, or all but one.
pub fn marks(random: &mut Random, states: usize) -> Vec<u8> {
    let choice = random.below(8);
    let one = if random.once_in(2) { 0 } else { random.below(states) };
    let mark = |state: usize, random: &mut Random| match choice {
        0..=2 => random.once_in(2),
        3 => false,
        4 => true,
        5 => state != one,
        _ => state == one,
    };
    (0..states).map(|state| mark(state, random) as u8).collect()
}

/// A sheet with those letters, of sizes that `size` chooses.
pub fn sheet_of(random: &mut Random, letters: usize, size: fn(&mut Random) -> usize) -> Draft {
    let states = size(random);
    let shape = random.pick(&SHAPES);
    let leading = table(random, shape, letters, states);
    let shape = random.pick(&SHAPES);
    let most = size(random);
    let mut progress = Vec::new();
    for _ in 0..states {
        let size = random.between(1, most);
        progress.push((table(random, shape, letters, size), marks(random, size)));
    }
    Draft { letters, leading, progress }
}

pub fn sheet(random: &mut Random) -> Draft {
    let letters = count(random);
    sheet_of(random, letters, count)
}

/// The same sheet with its states numbered another way; state 0 stays the start.
pub fn renumbered(random: &mut Random, draft: &Draft) -> Draft {
    let order = order_from_zero(random, draft.states());
    let mut result = draft.clone();
    result.leading = renumber(&draft.leading, &order, draft.letters);
    for (state, (next, marks)) in draft.progress.iter().enumerate() {
        let inner = order_from_zero(random, marks.len());
        result.progress[order[state]] = (renumber(next, &inner, draft.letters), move_cells(marks, &inner, 1));
    }
    result
}

fn order_from_zero(random: &mut Random, states: usize) -> Vec<usize> {
    let mut order: Vec<usize> = (0..states).collect();
    random.shuffle(&mut order[1..]);
    order
}

fn renumber(next: &[u8], order: &[usize], letters: usize) -> Vec<u8> {
    let renamed: Vec<u8> = next.iter().map(|&state| order[state as usize] as u8).collect();
    move_cells(&renamed, order, letters)
}

/// Moves the row of each state to the state's new number.
fn move_cells(cells: &[u8], order: &[usize], width: usize) -> Vec<u8> {
    let mut moved = vec![0; cells.len()];
    for (state, row) in cells.chunks_exact(width).enumerate() {
        moved[order[state] * width..][..width].copy_from_slice(row);
    }
    moved
}

/// Turns some marks of a sheet on.
pub fn widened(random: &mut Random, draft: &Draft) -> Draft {
    let mut result = draft.clone();
    for (_, marks) in &mut result.progress {
        for mark in marks {
            *mark |= random.once_in(4) as u8;
        }
    }
    result
}

/// Changes one mark or one next state.
pub fn altered(random: &mut Random, draft: &Draft) -> Draft {
    let mut result = draft.clone();
    let states = result.states();
    let (next, marks) = &mut result.progress[random.below(states)];
    match random.below(3) {
        0 => {
            let at = random.below(result.leading.len());
            result.leading[at] = random.below(states) as u8;
        }
        1 => {
            let at = random.below(next.len());
            next[at] = random.below(marks.len()) as u8;
        }
        _ => {
            let at = random.below(marks.len());
            marks[at] ^= 1;
        }
    }
    result
}

/// A sheet whose automata are all cycles, with one mark or one place unmarked in each: against another one it needs long periods.
pub fn cycles(letters: usize, states: usize, size: usize, marked: bool, random: &mut Random) -> Draft {
    let leading = table(random, Shape::Cycle, letters, states);
    let next = table(random, Shape::Cycle, letters, size);
    let mut marks = vec![!marked as u8; size];
    marks[0] = marked as u8;
    Draft { letters, leading, progress: vec![(next, marks); states] }
}

/// A sheet whose leading automaton is a lock and which marks (or leaves unmarked) only at its last state: it needs long prefixes.
pub fn lock(letters: usize, states: usize, size: usize, marked: bool, random: &mut Random) -> Draft {
    let leading = table(random, Shape::Lock, letters, states);
    let mut progress = Vec::new();
    for state in 0..states {
        let last = state + 1 == states;
        progress.push((table(random, Shape::Free, letters, size), vec![(last == marked) as u8; size]));
    }
    Draft { letters, leading, progress }
}

/// A sheet whose leading states come one after the other, up to `waits`, which stays. There the progress state `ends`, the last, is marked
/// alone (or alone is not), elsewhere none (or all): a lasso found waits and ends at those two.
pub fn waiting(letters: usize, waits: usize, ends: usize, marked: bool, random: &mut Random) -> Draft {
    let leading = (0..=waits).flat_map(|state| vec![waits.min(state + 1) as u8; letters]).collect();
    let mut progress = Vec::new();
    for state in 0..=waits {
        let marks = (0..=ends).map(|at| ((state == waits && at == ends) == marked) as u8).collect();
        progress.push((table(random, Shape::Permutation, letters, ends + 1), marks));
    }
    Draft { letters, leading, progress }
}
