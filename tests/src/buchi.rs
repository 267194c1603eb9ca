//! Deterministic Büchi automata, and the families of DFAs that they are translated to (002, Theorem 5.3).

use crate::generate::Draft;
use crate::sheet::MOST;
use std::collections::HashMap;

/// The most states: a progress automaton has twice as many.
pub const MOST_STATES: usize = MOST / 2;

/// A complete automaton; its start is state 0.
#[derive(Clone, Debug, PartialEq, Eq)]
pub struct Buchi {
    pub letters: usize,
    /// Next states, state by state and letter by letter.
    pub next: Vec<u8>,
    /// By state.
    pub accepting: Vec<bool>,
}

impl Buchi {
    pub fn states(&self) -> usize {
        self.accepting.len()
    }

    fn step(&self, state: usize, letter: u8) -> usize {
        self.next[state * self.letters + letter as usize] as usize
    }

    /// Whether the run on a lasso enters accepting states without end. It ends in a cycle of states and positions in the period: whether
    /// it enters one there.
    pub fn accepts(&self, prefix: &[u8], period: &[u8]) -> bool {
        let mut state = prefix.iter().fold(0, |state, &letter| self.step(state, letter));
        let (mut met, mut entered) = (HashMap::new(), Vec::new());
        loop {
            let position = entered.len() % period.len();
            if let Some(before) = met.insert((state, position), entered.len()) {
                return entered[before..].contains(&true);
            }
            state = self.step(state, period[position]);
            entered.push(self.accepting[state]);
        }
    }

    /// The family of size (n, 2n): its leading automaton is this one.
    pub fn family(&self) -> Draft {
        let progress = (0..self.states()).map(|start| self.progress(start)).collect();
        Draft { letters: self.letters, leading: self.next.clone(), progress }
    }

    /// Next states and marks of the automaton that remembers the state, and whether an accepting one was entered since `start`.
    fn progress(&self, start: usize) -> (Vec<u8>, Vec<u8>) {
        let states = self.states();
        let number = |state: usize, entered: bool| 2 * ((state + states - start) % states) + entered as usize;
        let (mut next, mut marks) = (vec![0; 2 * states * self.letters], vec![0; 2 * states]);
        for (state, entered) in (0..states).flat_map(|state| [(state, false), (state, true)]) {
            let pair = number(state, entered);
            marks[pair] = entered as u8;
            for letter in 0..self.letters {
                let to = self.step(state, letter as u8);
                next[pair * self.letters + letter] = number(to, entered || self.accepting[to]) as u8;
            }
        }
        (next, marks)
    }
}

#[cfg(test)]
mod tests {
    use super::*;
    use crate::driver::random_automaton::any_automaton;
    use crate::driver::random_show::any_lasso;
    use crate::naive::Family;
    use crate::random::Random;
    use crate::verdict::verdict;

    /// Automata and lassos at random, few of them long.
    fn tries(seed: u64, count: usize, mut check: impl FnMut(&mut Random, &Buchi, &[u8], &[u8])) {
        let mut random = Random::new(seed);
        for _ in 0..count {
            let automaton = any_automaton(&mut random);
            for _ in 0..10 {
                let (prefix, period) = any_lasso(&mut random, automaton.letters);
                check(&mut random, &automaton, &prefix, &period);
            }
        }
    }

    /// After n turns the run is on its cycle, which takes at most n turns more.
    #[test]
    fn the_cycle_says_what_many_turns_say() {
        let (mut accepted, mut rejected) = (0, 0);
        tries(21, 500, |_, automaton, prefix, period| {
            let turns = period.repeat(automaton.states());
            let mut state = [prefix, &turns].concat().iter().fold(0, |state, &letter| automaton.step(state, letter));
            let mut entered = false;
            for &letter in &turns {
                state = automaton.step(state, letter);
                entered |= automaton.accepting[state];
            }
            assert_eq!(automaton.accepts(prefix, period), entered);
            *if entered { &mut accepted } else { &mut rejected } += 1;
        });
        assert!(accepted > 500 && rejected > 500, "{accepted} {rejected}");
    }

    #[test]
    fn the_family_accepts_what_the_automaton_accepts() {
        let (mut before, mut turns) = (0, 0);
        tries(22, 500, |_, automaton, prefix, period| {
            let given = verdict(&automaton.family().pack(), prefix, period).unwrap();
            assert_eq!(given.accepted, automaton.accepts(prefix, period));
            before += (given.before > 0) as usize;
            turns += (given.turns > 1) as usize;
        });
        assert!(before > 500 && turns > 500, "the mix has lassos that do not close: {before} {turns}");
    }

    /// Further turns, and scenes of the period that join the prefix, leave the verdict alone.
    #[test]
    fn the_family_is_steady() {
        tries(23, 500, |random, automaton, prefix, period| {
            let family = Family::unpack(&automaton.family().pack());
            let period = &period[..period.len().min(20)];
            let roll = random.below(period.len());
            let more = [prefix, &period.repeat(random.below(3)), &period[..roll]].concat();
            let rolled = [&period[roll..], &period[..roll]].concat().repeat(random.between(1, 3));
            assert_eq!(family.judge(&more, &rolled).0, family.judge(prefix, period).0);
        });
    }

    /// A word leads from 0 to the pair of the automaton's state and whether it entered an accepting one on the way: the pair's number is
    /// twice the steps from the start's number round to the state's, and one more for the flag.
    #[test]
    fn progress_states_are_numbered_from_their_start() {
        tries(24, 300, |random, automaton, _, word| {
            let start = random.below(automaton.states());
            let (next, marks) = automaton.progress(start);
            let (mut state, mut entered, mut pair) = (start, 0, 0);
            for &letter in word {
                state = automaton.step(state, letter);
                entered |= automaton.accepting[state] as usize;
                pair = next[pair * automaton.letters + letter as usize] as usize;
                let around = (start..).take_while(|at| at % automaton.states() != state).count();
                assert_eq!((pair, marks[pair] as usize), (2 * around + entered, entered));
            }
        });
    }
}
