//! The comparison by plain trial of all short lassos, straight from the definitions. Only for small sheets.

use crate::standing::Standing;
use std::cmp::Ordering;

/// A family of DFAs, taken from a packed sheet that is in order.
pub struct Family {
    pub letters: usize,
    /// By state, then by letter.
    leading: Vec<Vec<usize>>,
    /// By leading state: next states by state, then by letter; marks.
    progress: Vec<(Vec<Vec<usize>>, Vec<bool>)>,
}

pub type Lasso = (Vec<u8>, Vec<u8>);

impl Family {
    pub fn unpack(sheet: &[u8]) -> Self {
        let mut bytes = sheet.iter().map(|&byte| byte as usize);
        let mut take = |count: usize| -> Vec<usize> { bytes.by_ref().take(count).collect() };
        let (letters, states) = (take(1)[0], take(1)[0]);
        let sizes = take(states);
        let leading = (0..states).map(|_| take(letters)).collect();
        let mut progress = Vec::new();
        for size in sizes {
            let next = (0..size).map(|_| take(letters)).collect();
            progress.push((next, take(size).iter().map(|&mark| mark == 1).collect()));
        }
        Family { letters, leading, progress }
    }

    pub fn states(&self) -> usize {
        self.leading.len()
    }

    pub fn largest_size(&self) -> usize {
        self.progress.iter().map(|(_, marks)| marks.len()).max().unwrap()
    }

    pub fn leading_next(&self, state: u8, letter: usize) -> u8 {
        self.leading[state as usize][letter] as u8
    }

    /// In the progress automaton of a leading state.
    pub fn progress_next(&self, leading: u8, state: u8, letter: usize) -> u8 {
        self.progress[leading as usize].0[state as usize][letter] as u8
    }

    pub fn is_marked(&self, leading: u8, state: u8) -> bool {
        self.progress[leading as usize].1[state as usize]
    }

    /// The leading state after a prefix and some turns of a period.
    fn leading_after(&self, prefix: &[u8], period: &[u8], turns: usize) -> usize {
        let start = run(&self.leading, 0, prefix);
        (0..turns).fold(start, |state, _| run(&self.leading, state, period))
    }

    /// The closing numbers: the smallest i, and for it the smallest j.
    pub fn closing_numbers(&self, prefix: &[u8], period: &[u8]) -> (usize, usize) {
        for i in 0..self.states() {
            let state = self.leading_after(prefix, period, i);
            for j in 1..=self.states() {
                if self.leading_after(prefix, period, i + j) == state {
                    return (i, j);
                }
            }
        }
        unreachable!("a state comes again within as many turns as there are states");
    }

    /// Where the lasso takes the family: the leading state after no turn, and its progress state after one.
    pub fn standing(&self, prefix: &[u8], period: &[u8]) -> Standing {
        let waits = self.leading_after(prefix, period, 0);
        Standing { waits, ends: run(&self.progress[waits].0, 0, period) }
    }

    /// Whether the lasso is accepted, its leading state and its progress state at the end.
    pub fn judge(&self, prefix: &[u8], period: &[u8]) -> (bool, usize, usize) {
        let (i, j) = self.closing_numbers(prefix, period);
        let leading = self.leading_after(prefix, period, i);
        let (next, marks) = &self.progress[leading];
        let end = run(next, 0, &period.repeat(j));
        (marks[end], leading, end)
    }
}

fn run(next: &[Vec<usize>], from: usize, word: &[u8]) -> usize {
    word.iter().fold(from, |state, &letter| next[state][letter as usize])
}

/// Whether a lasso closes in both families, is accepted by the first and rejected by the second.
pub fn is_counterexample(first: &Family, second: &Family, prefix: &[u8], period: &[u8]) -> bool {
    first.closing_numbers(prefix, period) == (0, 1)
        && second.closing_numbers(prefix, period) == (0, 1)
        && first.judge(prefix, period).0
        && !second.judge(prefix, period).0
}

/// The first counterexample among the lassos with a prefix and a period of at most those lengths.
pub fn first_counterexample(
    first: &Family,
    second: &Family,
    longest_prefix: usize,
    longest_period: usize,
) -> Option<Lasso> {
    let wanted = |prefix: &[u8], period: &[u8]| is_counterexample(first, second, prefix, period);
    first_lasso(first.letters, longest_prefix, longest_period, wanted)
}

/// The first wanted lasso among those with a prefix and a period of at most those lengths.
pub fn first_lasso(
    letters: usize,
    longest_prefix: usize,
    longest_period: usize,
    wanted: impl Fn(&[u8], &[u8]) -> bool,
) -> Option<Lasso> {
    let mut prefix = Vec::new();
    while prefix.len() <= longest_prefix {
        let mut period = vec![0];
        while period.len() <= longest_period {
            if wanted(&prefix, &period) {
                return Some((prefix, period));
            }
            advance(&mut period, letters);
        }
        advance(&mut prefix, letters);
    }
    None
}

/// Turns a word into the next one: shorter words first, those of one length by their letters.
fn advance(word: &mut Vec<u8>, letters: usize) {
    for at in (0..word.len()).rev() {
        word[at] += 1;
        if (word[at] as usize) < letters {
            return;
        }
        word[at] = 0;
    }
    word.push(0);
}

/// The order of lassos.
pub fn order(left: &Lasso, right: &Lasso) -> Ordering {
    let words = |left: &Vec<u8>, right: &Vec<u8>| left.len().cmp(&right.len()).then_with(|| left.cmp(right));
    words(&left.0, &right.0).then_with(|| words(&left.1, &right.1))
}

/// How many pairs of leading states are reached, by adding next pairs until nothing is new.
pub fn reached_pairs(first: &Family, second: &Family) -> usize {
    let mut reached = vec![(0, 0)];
    loop {
        let known = reached.len();
        for at in 0..known {
            let (state1, state2) = reached[at];
            for letter in 0..first.letters {
                let next = (first.leading[state1][letter], second.leading[state2][letter]);
                if !reached.contains(&next) {
                    reached.push(next);
                }
            }
        }
        if reached.len() == known {
            return known;
        }
    }
}

/// How many leading states are reached, in the same manner.
pub fn reached_states(family: &Family) -> usize {
    let mut reached = vec![0];
    loop {
        let known = reached.len();
        for at in 0..known {
            for &next in &family.leading[reached[at]] {
                if !reached.contains(&next) {
                    reached.push(next);
                }
            }
        }
        if reached.len() == known {
            return known;
        }
    }
}

#[cfg(test)]
mod tests {
    use super::*;
    use crate::generate::{self, Draft};
    use crate::inclusion::{Inclusion, Search};
    use crate::random::Random;

    /// Two small sheets: free ones, or the second made from the first.
    fn small_pair(random: &mut Random) -> (Draft, Draft) {
        let letters = random.between(1, 3);
        let small = |random: &mut Random| random.between(1, 3);
        let first = generate::sheet_of(random, letters, small);
        let second = match random.below(4) {
            0 => generate::widened(random, &first),
            1 => generate::altered(random, &first),
            _ => generate::sheet_of(random, letters, small),
        };
        let second = generate::renumbered(random, &second);
        (first, second)
    }

    /// Lengths up to which there are few enough lassos to try them all.
    fn lengths_to_try(letters: usize, pairs: usize, combinations: usize) -> (usize, usize) {
        let (prefix, period) = [(8, 90), (3, 8), (2, 6)][letters - 1];
        (prefix.min(pairs - 1), period.min(combinations))
    }

    #[test]
    fn agrees_with_the_trial_of_all_short_lassos() {
        let mut random = Random::new(3);
        let mut search = Search::default();
        // Cases where the lengths tried are the most that can be needed, and among them contained ones; found ones.
        let (mut whole, mut contained, mut found) = (0, 0, 0);
        for _ in 0..4000 {
            let (first, second) = small_pair(&mut random);
            let (family1, family2) = (Family::unpack(&first.pack()), Family::unpack(&second.pack()));
            let pairs = family1.states() * family2.states();
            let combinations = pairs * family1.largest_size() * family2.largest_size();
            let (prefix, period) = lengths_to_try(first.letters, pairs, combinations);
            let tried = first_counterexample(&family1, &family2, prefix, period);

            let (mut u, mut v) = ([0; 100], [0; 200]);
            let answer = search.compare(&first.pack(), &second.pack(), &mut u, &mut v).unwrap();
            let all = (prefix, period) == (pairs - 1, combinations);
            whole += all as usize;
            match answer {
                Inclusion::Contained { reached } => {
                    assert_eq!(reached, reached_pairs(&family1, &family2));
                    assert_eq!(tried, None);
                    contained += all as usize;
                }
                Inclusion::Missing { reached, prefix: length1, period: length2, standings } => {
                    assert_eq!(reached, reached_pairs(&family1, &family2));
                    let lasso: Lasso = (u[..length1].to_vec(), v[..length2].to_vec());
                    assert!(is_counterexample(&family1, &family2, &lasso.0, &lasso.1));
                    assert_eq!(standings, [&family1, &family2].map(|family| family.standing(&lasso.0, &lasso.1)));
                    if length1 <= prefix && length2 <= period {
                        assert_eq!(tried, Some(lasso));
                        found += 1;
                    } else {
                        assert!(!all, "the first counterexample is no longer than 01 says");
                        assert!(tried.is_none_or(|tried| order(&lasso, &tried).is_lt()));
                    }
                }
            }
        }
        println!("{whole} with all lengths that can be needed, {contained} of them contained; {found} found");
        assert!(whole > 1500 && contained > 500 && found > 1000);
    }
}
