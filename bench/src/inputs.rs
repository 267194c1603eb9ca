//! What is timed.

use crate::{captions, heavy};
use outside::generate::{cycles, table, Draft, Shape};
use outside::inclusion::{Inclusion, Search};
use outside::naive;
use outside::random::Random;

pub const MIB: usize = 1 << 20;

pub struct Lasso {
    pub sheet: Vec<u8>,
    pub prefix: Vec<u8>,
    pub period: Vec<u8>,
}

pub struct Comparison {
    pub first: Vec<u8>,
    pub second: Vec<u8>,
}

pub fn lassos() -> Vec<(String, Lasso)> {
    let mut lassos = Vec::new();
    for (letters, states) in [(32, 32), (2, 3)] {
        let mut random = Random::new(7);
        let sheet = sheet_of_permutations(&mut random, letters, states);
        let (prefix, period) = (random.word(16 * MIB, letters), random.word(8, letters));
        let name = format!("verdict, opening of 16 MiB, {letters} scenes, {states} places");
        lassos.push((name, Lasso { sheet, prefix, period }));
    }
    for (letters, states, turns) in [(32, 32, 1), (32, 32, 32), (2, 3, 1), (2, 3, 3)] {
        let mut random = Random::new(8);
        let sheet = sheet_around(&mut random, letters, states);
        let period = period_of_turns(&mut random, letters, states, turns);
        let name = format!("verdict, loop of 1 MiB, {letters} scenes, {states} places, i 0, j {turns}");
        lassos.push((name, Lasso { sheet, prefix: Vec::new(), period }));
    }
    lassos
}

/// All automata have that many states, and each letter permutes them; half the progress states are marked.
pub fn sheet_of_permutations(random: &mut Random, letters: usize, states: usize) -> Vec<u8> {
    let leading = table(random, Shape::Permutation, letters, states);
    Draft { letters, leading, progress: progress(random, letters, states) }.pack()
}

fn progress(random: &mut Random, letters: usize, states: usize) -> Vec<(Vec<u8>, Vec<u8>)> {
    let marks: Vec<u8> = (0..states).map(|state| (state % 2) as u8).collect();
    (0..states).map(|_| (table(random, Shape::Permutation, letters, states), marks.clone())).collect()
}

/// The leading automaton adds the letter to the state, so that a period's letters say how many turns it takes.
pub fn sheet_around(random: &mut Random, letters: usize, states: usize) -> Vec<u8> {
    let cells = (0..states).flat_map(|state| (0..letters).map(move |letter| ((state + letter) % states) as u8));
    let leading = cells.collect();
    Draft { letters, leading, progress: progress(random, letters, states) }.pack()
}

/// 1 MiB of letters whose sum makes the leading automaton come back after 1 turn, or after as many turns as it has states.
fn period_of_turns(random: &mut Random, letters: usize, states: usize, turns: usize) -> Vec<u8> {
    let due = if turns == 1 { 0 } else { 1 };
    loop {
        let period = random.word(MIB, letters);
        if period.iter().map(|&letter| letter as usize).sum::<usize>() % states == due {
            return period;
        }
    }
}

/// Leading states of the two sheets and progress states of each: 32 pairs, 255 combinations of progress states, 8,192 cells.
const STATES: [usize; 2] = [8, 4];
const SIZES: [usize; 2] = [17, 15];

/// A number below a million as it is written.
pub fn grouped(number: usize) -> String {
    if number < 1000 {
        number.to_string()
    } else {
        format!("{},{:03}", number / 1000, number % 1000)
    }
}

pub fn comparisons() -> Vec<(String, Comparison)> {
    let mut comparisons = Vec::new();
    for letters in [4, 32] {
        let (comparison, met) = contained(letters);
        let name = format!(
            "comparison, 8,192 cells, {letters} scenes, contained, {met} combinations met from each of 32 pairs, no ending in reach"
        );
        comparisons.push((name, comparison));
        let (comparison, prefix, period) = missing(letters);
        let name = format!(
            "comparison, 8,192 cells, {letters} scenes, missing late, opening {prefix}, loop {period}, no ending in reach from other pairs"
        );
        comparisons.push((name, comparison));
    }
    let mut random = Random::new(10);
    let first = cycles(1, 7, 31, true, &mut random).pack();
    let second = cycles(1, 1, 32, false, &mut random).pack();
    comparisons
        .push(("comparison, 6,951 cells, 1 scene, missing, loop 6,944".to_string(), Comparison { first, second }));
    for (letters, states, sizes) in [
        (32, [32, 32], [7, 1]),
        (4, [32, 32], [7, 1]),
        (32, [16, 16], [5, 6]),
        (2, [32, 1], [17, 15]),
        (4, [32, 1], [17, 15]),
    ] {
        comparisons.push(heavy::contained(heavy::Sizes { letters, states, sizes }));
    }
    for letters in [2, 4] {
        comparisons.push(heavy::missing(heavy::Sizes { letters, states: [32, 1], sizes: [17, 15] }));
    }
    comparisons.push(agreeing());
    comparisons.extend(captions::comparisons());
    comparisons
}

/// A sheet in itself: from each pair that is reached the two progress automata go together.
fn agreeing() -> (String, Comparison) {
    let sheet = sheet_of_permutations(&mut Random::new(12), 32, 9);
    let name = "comparison, 6,642 cells, 32 scenes, a sheet in itself, no ending in reach".to_string();
    (name, Comparison { first: sheet.clone(), second: sheet })
}

/// Two sheets without marks whose letters permute all states, so that every pair and combination is met from everywhere; but the last
/// progress states, as many as `spare` says, are never entered. Marks there keep a search going that finds nothing.
fn full_drafts(letters: usize, spare: [usize; 2]) -> [Draft; 2] {
    let mut random = Random::new(9);
    let mut draft = |side: usize| {
        let (states, size) = (STATES[side], SIZES[side]);
        let mut leading = table(&mut random, Shape::Permutation, letters, states);
        for state in 0..states {
            // The first letter goes round both leading automata, the second one round the first alone.
            leading[state * letters] = ((state + 1) % states) as u8;
            leading[state * letters + 1] = ((state + 1 - side) % states) as u8;
        }
        let progress = (0..states).map(|_| {
            let mut next = table(&mut random, Shape::Permutation, letters, size - spare[side]);
            next.resize(size * letters, 0);
            (next, vec![0; size])
        });
        Draft { letters, leading, progress: progress.collect() }
    };
    [draft(0), draft(1)]
}

/// No counterexample, though the search of each pair goes all the way: the first sheet marks only what is never entered. Also answers
/// how many combinations are met from each pair.
fn contained(letters: usize) -> (Comparison, usize) {
    let [mut first, second] = full_drafts(letters, [1, 0]);
    for (_, marks) in &mut first.progress {
        marks[SIZES[0] - 1] = 1;
    }
    let comparison = Comparison { first: first.pack(), second: second.pack() };
    let mut search = Search::default();
    let answer = search.compare(&comparison.first, &comparison.second, &mut [], &mut []);
    assert_eq!(answer, Ok(Inclusion::Contained { reached: STATES[0] * STATES[1] }));
    let met = search.combinations_met();
    assert_eq!(met, STATES[0] * STATES[1] * (SIZES[0] - 1) * SIZES[1], "all that can be entered are met");
    (comparison, met)
}

/// One pair alone has a counterexample: the last one in the order of openings, and for it one whose loop is among the longest.
fn missing(letters: usize) -> (Comparison, usize, usize) {
    let drafts = full_drafts(letters, [1, 1]);
    let mut last = ((Vec::new(), Vec::new()), [0; 4]);
    for state1 in 0..STATES[0] {
        for state2 in 0..STATES[1] {
            last = later(last, &drafts, [state1, state2, 0, 0]);
        }
    }
    let [state1, state2, ..] = last.1;
    for mark1 in 0..SIZES[0] - 1 {
        for mark2 in 0..SIZES[1] - 1 {
            last = later(last, &drafts, [state1, state2, mark1, mark2]);
        }
    }
    let ((prefix, period), choice) = last;
    (with_one_wanted(&drafts, choice), prefix.len(), period.len())
}

type Choice = [usize; 4];

/// Of a counterexample and that of another choice, the one that comes later in the order.
fn later(known: (naive::Lasso, Choice), drafts: &[Draft; 2], choice: Choice) -> (naive::Lasso, Choice) {
    let Comparison { first, second } = with_one_wanted(drafts, choice);
    let (mut prefix, mut period) = (vec![0; 32], vec![0; 8192]);
    match Search::default().compare(&first, &second, &mut prefix, &mut period) {
        Ok(Inclusion::Missing { prefix: prefix_length, period: period_length, .. }) => {
            prefix.truncate(prefix_length);
            period.truncate(period_length);
        }
        other => panic!("there is a counterexample, not {other:?}"),
    }
    let lasso = (prefix, period);
    if naive::order(&lasso, &known.0).is_gt() {
        (lasso, choice)
    } else {
        known
    }
}

/// One state of one progress automaton of the first sheet is marked, one of one of the second is unmarked; beyond that only states
/// that are never entered differ, so that every pair is searched.
fn with_one_wanted(drafts: &[Draft; 2], [state1, state2, mark1, mark2]: Choice) -> Comparison {
    let [mut first, mut second] = drafts.clone();
    for (_, marks) in &mut first.progress {
        marks[SIZES[0] - 1] = 1;
    }
    first.progress[state1].1[mark1] = 1;
    for (_, marks) in &mut second.progress {
        marks[..SIZES[1] - 1].fill(1);
    }
    second.progress[state2].1[mark2] = 0;
    Comparison { first: first.pack(), second: second.pack() }
}
