//! A deterministic Büchi automaton as text (F-3): the start, a line for each state and letter, a line for each accepting state.

use crate::buchi::{Buchi, MOST_STATES};
use crate::lent::fill;
use crate::sheet::{Refusal, MOST};
use crate::text_reader::{refuse, Reader};

const START: &str = "[0]\n";

/// Puts the packed sheet of an automaton's text into the out slice.
pub fn import(text: &[u8], out: &mut [u8]) -> Result<usize, Refusal> {
    fill(out, &automaton_of(text)?.family().pack())
}

/// The automaton of a text, or the fault at the smallest place; then the smallest place of a state that there is not.
pub fn automaton_of(text: &[u8]) -> Result<Buchi, Refusal> {
    let mut text = Reader::new(text);
    text.literal(START)?;
    let (letters, targets) = transitions(&mut text)?;
    let accepting = accepting(&mut text)?;
    let states = targets.len() / letters;
    if let Some(&(_, place)) = targets.iter().chain(&accepting).find(|(state, _)| *state >= states) {
        return refuse(5, place);
    }
    let next = targets.iter().map(|&(state, _)| state as u8).collect();
    let accepting = (0..states).map(|state| accepting.iter().any(|&(known, _)| known == state)).collect();
    Ok(Buchi { letters, next, accepting })
}

/// The number of letters, and the targets with their places: the lines up to the first that is none of these, which may stand only
/// where the last state has all its lines.
fn transitions(text: &mut Reader) -> Result<(usize, Vec<(usize, usize)>), Refusal> {
    let (mut letters, mut targets) = (None, Vec::new());
    loop {
        let count = targets.len();
        let complete = letters.map_or(count > 0, |letters| count % letters == 0);
        if complete && text.here() != Some(b's') {
            return Ok((letters.unwrap_or(count), targets));
        }
        let (source, target) = transition(text, &due(count, letters))?;
        if source == 1 && letters.is_none() {
            letters = Some(count);
        }
        targets.push(target);
    }
}

/// Letter and source of the lines that are due after some lines: one more of state 0 and the first of state 1, as long as it is not
/// known how many letters there are.
fn due(count: usize, letters: Option<usize>) -> Vec<(usize, usize)> {
    match letters {
        Some(letters) => vec![(count % letters, count / letters)],
        None if count == 0 => vec![(0, 0)],
        None => vec![(count, 0), (0, 1)],
    }
}

/// One line: its source, and its target with its place.
fn transition(text: &mut Reader, due: &[(usize, usize)]) -> Result<(usize, (usize, usize)), Refusal> {
    text.literal("s")?;
    let (letter, _) = text.judged(|letter| out_of_turn(letter, due.iter().map(|line| line.0), MOST, 2))?;
    text.literal(",[")?;
    let sources = due.iter().filter(|line| line.0 == letter).map(|line| line.1);
    let (source, _) = text.judged(|source| out_of_turn(source, sources.clone(), MOST_STATES, 3))?;
    text.literal("]->[")?;
    let target = text.judged(|_| None)?;
    text.literal("]\n")?;
    Ok((source, target))
}

/// Refusal 12 for a number that is not due; where it is due, another for the first one too many.
fn out_of_turn(number: usize, mut due: impl Iterator<Item = usize>, most: usize, too_many: usize) -> Option<usize> {
    if due.any(|due| due == number) {
        (number == most).then_some(too_many)
    } else {
        Some(12)
    }
}

/// The accepting states with their places, up to the text's end.
fn accepting(text: &mut Reader) -> Result<Vec<(usize, usize)>, Refusal> {
    let mut states: Vec<(usize, usize)> = Vec::new();
    while text.here() == Some(b'[') {
        text.literal("[")?;
        let last = states.last().map(|state| state.0);
        states.push(text.judged(|state| last.is_some_and(|last| last >= state).then_some(12))?);
        text.literal("]\n")?;
    }
    text.end()?;
    if states.is_empty() {
        return text.refuse(13);
    }
    Ok(states)
}

pub fn text_of(automaton: &Buchi) -> String {
    let mut text = START.to_string();
    for (state, row) in automaton.next.chunks_exact(automaton.letters).enumerate() {
        for (letter, target) in row.iter().enumerate() {
            text += &format!("s{letter},[{state}]->[{target}]\n");
        }
    }
    for state in (0..automaton.states()).filter(|&state| automaton.accepting[state]) {
        text += &format!("[{state}]\n");
    }
    text
}

#[cfg(test)]
mod tests {
    use super::*;
    use crate::driver::random_automaton::any_automaton;
    use crate::random::Random;
    use crate::sheet::Part;

    #[test]
    fn reading_and_writing_are_inverse() {
        let mut random = Random::new(31);
        for _ in 0..2000 {
            let automaton = any_automaton(&mut random);
            let text = text_of(&automaton);
            assert_eq!(automaton_of(text.as_bytes()).as_ref(), Ok(&automaton));
            // The cells past the length stay as they were.
            let sheet = automaton.family().pack();
            let mut out = vec![77; sheet.len() + 2];
            assert_eq!(import(text.as_bytes(), &mut out), Ok(sheet.len()));
            assert_eq!((&out[..sheet.len()], &out[sheet.len()..]), (&sheet[..], &[77, 77][..]));
        }
    }

    /// Eleven letters and twelve states, so that numbers have two digits: a text in which any two bytes are changed is that of its
    /// automaton, or it is refused.
    #[test]
    fn only_texts_of_automata_are_read() {
        let mut random = Random::new(32);
        let (mut read, mut refused) = (0, [0; 14]);
        let next = (0..11 * 12).map(|at| at % 12).collect();
        let whole = text_of(&Buchi { letters: 11, next, accepting: (0..12).map(|state| state % 3 == 1).collect() });
        for _ in 0..50_000 {
            let mut text = whole.clone().into_bytes();
            for _ in 0..2 {
                let at = if random.once_in(2) { random.below(text.len()) } else { text.len() - 1 - random.below(40) };
                text[at] = random.pick(b"0123456789 \n\rs,[]->");
            }
            match automaton_of(&text) {
                Ok(automaton) => {
                    assert_eq!(text_of(&automaton).as_bytes(), text);
                    read += 1;
                }
                Err(Refusal { number, part, place }) => {
                    assert!([5, 11, 12].contains(&number) && part == Part::First && place <= text.len());
                    assert!(number == 11 || text[place].is_ascii_digit(), "{}", text.escape_ascii());
                    refused[number] += 1;
                }
            }
        }
        assert!(read > 200 && refused[5] > 200 && refused[11] > 200 && refused[12] > 200, "{read} {refused:?}");
    }
}
