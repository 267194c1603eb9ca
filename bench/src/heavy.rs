//! Comparisons whose search goes all the way from every pair, and that no look at the progress automata alone can spare.
//!
//! In the progress automaton of a leading state q of the first sheet the last state is marked, and entered by one letter alone: one by
//! which the leading automaton never comes to q. So endings that would count come up from every pair, but never where the pair is back.

use crate::inputs::{grouped, Comparison};
use outside::generate::{table, Draft, Shape};
use outside::inclusion::{Inclusion, Search, CELLS};
use outside::naive;
use outside::random::Random;

/// Letters, leading states of the two sheets, progress states of each of their automata.
#[derive(Clone, Copy)]
pub struct Sizes {
    pub letters: usize,
    pub states: [usize; 2],
    pub sizes: [usize; 2],
}

impl Sizes {
    fn pairs(self) -> usize {
        self.states[0] * self.states[1]
    }

    fn combinations(self) -> usize {
        self.pairs() * self.sizes[0] * self.sizes[1]
    }

    /// The letter by which the first leading automaton never comes to a state.
    fn avoided(self, state: usize) -> usize {
        state % self.letters.min(self.states[0])
    }

    fn name(self) -> String {
        let Sizes { letters, states: [n1, n2], sizes: [k1, k2] } = self;
        let cells = self.pairs() + self.combinations();
        assert!(cells <= CELLS);
        let cells = grouped(cells);
        format!("comparison, {cells} cells, {letters} scenes, {n1} x {n2} places, loops of {k1} x {k2}")
    }
}

/// No counterexample: the second sheet accepts nothing, and yet nothing that the first one accepts closes.
pub fn contained(sizes: Sizes) -> (String, Comparison) {
    let (drafts, least) = drafts(sizes);
    let comparison = packed(&drafts);
    let mut search = Search::default();
    let answer = search.compare(&comparison.first, &comparison.second, &mut [], &mut []);
    assert_eq!(answer, Ok(Inclusion::Contained { reached: sizes.pairs() }));
    assert!(search.combinations_met() >= least);
    let name = format!("{}, contained, {} combinations or more met from each pair", sizes.name(), grouped(least));
    (name, comparison)
}

/// One leading state of the first sheet has a counterexample, the last one in the order of openings, and its loop is among the longest.
/// The second sheet has one leading state, so that the pairs are those of the first.
pub fn missing(sizes: Sizes) -> (String, Comparison) {
    assert_eq!(sizes.states[1], 1);
    let (drafts, least) = drafts(sizes);
    let mut last = ((Vec::new(), Vec::new()), [0; 3]);
    for state in 0..sizes.states[0] {
        last = later(last, &drafts, [state, 0, 0]);
    }
    let [state, ..] = last.1;
    for mark1 in 0..sizes.sizes[0] - 1 {
        for mark2 in 0..sizes.sizes[1] {
            last = later(last, &drafts, [state, mark1, mark2]);
        }
    }
    let ((prefix, period), choice) = last;
    assert!(!period.is_empty(), "there is a counterexample");
    let (opening, period) = (prefix.len(), period.len());
    let name = format!(
        "{}, missing late, opening {opening}, loop {period}, {} combinations or more met from each pair before",
        sizes.name(),
        grouped(least)
    );
    (name, packed(&with_one_found(&drafts, choice)))
}

/// Sheets as the head of this file has them, and the smallest number of combinations that are met from a pair: at least nine in ten.
fn drafts(sizes: Sizes) -> ([Draft; 2], usize) {
    let mut random = Random::new(11);
    loop {
        let drafts = [first(&mut random, sizes), second(&mut random, sizes)];
        let enough = |met: &usize| met * 10 >= sizes.combinations() * 9;
        let pairs = (0..sizes.states[0]).flat_map(|state1| (0..sizes.states[1]).map(move |state2| [state1, state2]));
        let met: Vec<usize> = pairs.map(|pair| met_from(&drafts, pair)).take_while(enough).collect();
        if met.len() == sizes.pairs() {
            let least = met.into_iter().min().expect("there are pairs");
            return (drafts, least);
        }
    }
}

fn first(random: &mut Random, sizes: Sizes) -> Draft {
    let Sizes { letters, states: [states, _], sizes: [size, _] } = sizes;
    let mut leading = table(random, Shape::Permutation, letters, states);
    for (at, next) in leading.iter_mut().enumerate() {
        if sizes.avoided(*next as usize) == at % letters {
            *next = (*next + 1) % states as u8;
        }
    }
    let mut progress = Vec::new();
    for state in 0..states {
        let mut next = table(random, Shape::Permutation, letters, size - 1);
        next.extend((0..letters).map(|_| random.below(size - 1) as u8));
        for row in 0..size {
            next[row * letters + sizes.avoided(state)] = ((row + 1) % size) as u8;
        }
        let mut marks = vec![0; size];
        marks[size - 1] = 1;
        progress.push((next, marks));
    }
    Draft { letters, leading, progress }
}

fn second(random: &mut Random, sizes: Sizes) -> Draft {
    let Sizes { letters, states: [_, states], sizes: [_, size] } = sizes;
    let leading = round(table(random, Shape::Permutation, letters, states), letters, states);
    let progress =
        (0..states).map(|_| (round(table(random, Shape::Permutation, letters, size), letters, size), vec![0; size]));
    Draft { letters, leading, progress: progress.collect() }
}

/// The table with a first letter that goes round all states.
fn round(mut next: Vec<u8>, letters: usize, states: usize) -> Vec<u8> {
    for state in 0..states {
        next[state * letters] = ((state + 1) % states) as u8;
    }
    next
}

/// How many combinations a search from a pair meets.
fn met_from([first, second]: &[Draft; 2], pair: [usize; 2]) -> usize {
    let letters = first.letters;
    let (next1, next2) = (&first.progress[pair[0]].0, &second.progress[pair[1]].0);
    let sizes = [first.states(), second.states(), next1.len() / letters, next2.len() / letters];
    let mut met = vec![false; sizes.iter().product()];
    let mut queue = vec![[pair[0], pair[1], 0, 0]];
    let mut head = 0;
    while head < queue.len() {
        let rows = queue[head].map(|state| state * letters);
        for letter in 0..letters {
            let [lead1, lead2, row1, row2] = rows.map(|row| row + letter);
            let node = [first.leading[lead1], second.leading[lead2], next1[row1], next2[row2]].map(usize::from);
            let number = node.iter().zip(sizes).fold(0, |number, (&state, size)| number * size + state);
            if !met[number] {
                met[number] = true;
                queue.push(node);
            }
        }
        head += 1;
    }
    queue.len() - 1
}

type Choice = [usize; 3];

/// Of a counterexample and that of another choice, if that has one, the one that comes later in the order.
fn later(known: (naive::Lasso, Choice), drafts: &[Draft; 2], choice: Choice) -> (naive::Lasso, Choice) {
    let Comparison { first, second } = packed(&with_one_found(drafts, choice));
    let (mut prefix, mut period) = (vec![0; CELLS], vec![0; CELLS]);
    match Search::default().compare(&first, &second, &mut prefix, &mut period) {
        Ok(Inclusion::Missing { prefix: prefix_length, period: period_length, .. }) => {
            prefix.truncate(prefix_length);
            period.truncate(period_length);
        }
        Ok(Inclusion::Contained { .. }) => return known,
        Err(refusal) => panic!("refused: {refusal:?}"),
    }
    let lasso = (prefix, period);
    if naive::order(&lasso, &known.0).is_gt() {
        (lasso, choice)
    } else {
        known
    }
}

/// One more progress state of one leading state of the first sheet is marked; of the second sheet's one state is left unmarked.
fn with_one_found(drafts: &[Draft; 2], [state, mark1, mark2]: Choice) -> [Draft; 2] {
    let [mut first, mut second] = drafts.clone();
    first.progress[state].1[mark1] = 1;
    second.progress[0].1.fill(1);
    second.progress[0].1[mark2] = 0;
    [first, second]
}

fn packed([first, second]: &[Draft; 2]) -> Comparison {
    Comparison { first: first.pack(), second: second.pack() }
}
