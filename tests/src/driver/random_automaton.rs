//! Büchi automata at random and their texts, with a fault in every kind of place.

use crate::buchi::{Buchi, MOST_STATES};
use crate::driver::random_text::{ended, lines, other_number, with_any_fault, with_faults, with_line};
use crate::generate::{self, count};
use crate::random::Random;
use crate::sheet::MOST;
use std::ops::Range;

/// An automaton, mostly small, that has an accepting state.
pub fn any_automaton(random: &mut Random) -> Buchi {
    let (letters, states) = (count(random), count(random).min(MOST_STATES));
    of_sizes(random, letters, states)
}

pub fn of_sizes(random: &mut Random, letters: usize, states: usize) -> Buchi {
    let shape = random.pick(&generate::SHAPES);
    let next = generate::table(random, shape, letters, states);
    let mut accepting: Vec<bool> = generate::marks(random, states).iter().map(|&mark| mark == 1).collect();
    if !accepting.contains(&true) {
        accepting[random.below(states)] = true;
    }
    Buchi { letters, next, accepting }
}

/// An automaton with a letter or a state too many.
pub fn too_large(random: &mut Random) -> Buchi {
    let few = random.between(1, 3);
    let (letters, states) = random.pick(&[(MOST + 1, few), (few, MOST_STATES + 1)]);
    of_sizes(random, letters, states)
}

/// An automaton's text with a fault or several (or, by luck, with none): in a number, a byte, a line, or at the end.
pub fn damaged(random: &mut Random, text: Vec<u8>) -> Vec<u8> {
    with_faults(random, text, |random, text| match random.below(16) {
        0..=6 => with_other_number(random, text),
        7..=10 => with_any_fault(random, text),
        11..=12 => with_another_line(random, &text),
        _ => cut_after_a_line(random, &text),
    })
}

/// Another number in the place of one: of the first ones, the last ones, or any.
fn with_other_number(random: &mut Random, mut text: Vec<u8>) -> Vec<u8> {
    let runs = runs_of_digits(&text);
    if runs.is_empty() {
        return text;
    }
    let any = random.below(runs.len());
    let at = random.pick(&[any % 16, runs.len() - 1 - any % 8, any]);
    let run = runs[at.min(runs.len() - 1)].clone();
    let other = other_number(random, &text[run.clone()]);
    text.splice(run, other);
    text
}

fn runs_of_digits(text: &[u8]) -> Vec<Range<usize>> {
    let mut runs: Vec<Range<usize>> = Vec::new();
    for at in (0..text.len()).filter(|&at| text[at].is_ascii_digit()) {
        match runs.last_mut() {
            Some(run) if run.end == at => run.end += 1,
            _ => runs.push(at..at + 1),
        }
    }
    runs
}

/// One more line: a transition or an accepting state anywhere, or an empty one.
fn with_another_line(random: &mut Random, text: &[u8]) -> Vec<u8> {
    let [letter, source, target] = [(); 3].map(|()| random.pick(&[0, 1, 2, 15, 16, 31, 32]));
    let line = match random.below(8) {
        0 => "\n".to_string(),
        1..=3 => format!("[{target}]\n"),
        _ => format!("s{letter},[{source}]->[{target}]\n"),
    };
    with_line(random, text, line)
}

/// The text up to the last transition, or to any line; mostly properly ended.
fn cut_after_a_line(random: &mut Random, text: &[u8]) -> Vec<u8> {
    let mut lines = lines(text);
    let last = lines.iter().rposition(|line| line.starts_with(b"s")).unwrap_or(0);
    let any = random.below(lines.len());
    lines.truncate(1 + random.pick(&[last, last, any]));
    ended(random, &lines)
}

#[cfg(test)]
mod tests {
    use super::*;
    use crate::buchi_text::{automaton_of, text_of};
    use crate::sheet::Refusal;

    #[test]
    fn damaged_texts_have_every_fault_and_few_have_none() {
        let mut random = Random::new(33);
        let (mut whole, mut faults) = (0, [0; 14]);
        for _ in 0..4000 {
            let automaton = any_automaton(&mut random);
            match automaton_of(&damaged(&mut random, text_of(&automaton).into_bytes())) {
                Ok(_) => whole += 1,
                Err(Refusal { number, .. }) => faults[number] += 1,
            }
        }
        let often = [5, 11, 12, 13].iter().all(|&number| faults[number] > 200);
        assert!(whole < 1000 && often, "{whole} {faults:?}");
    }
}
