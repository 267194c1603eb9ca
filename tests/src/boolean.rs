//! Complement, intersection and union of sheets: every mark turned, and the full product of 002, reached or not.

use crate::generate::Draft;
use crate::lent::fill;
use crate::sheet::{Part, Refusal, Sheet, MOST};

pub fn complement(sheet: &[u8], out: &mut [u8]) -> Result<usize, Refusal> {
    let sheet = Sheet::read(sheet, Part::First)?;
    let turned = |state: usize| {
        let automaton = sheet.progress(state);
        (automaton.next.to_vec(), automaton.marks.iter().map(|&mark| 1 - mark).collect())
    };
    let progress = (0..sheet.states).map(turned).collect();
    fill(out, &Draft { letters: sheet.letters, leading: sheet.leading().next.to_vec(), progress }.pack())
}

pub fn intersection(first: &[u8], second: &[u8], out: &mut [u8]) -> Result<usize, Refusal> {
    product(first, second, out, |mark1, mark2| mark1 & mark2)
}

pub fn union(first: &[u8], second: &[u8], out: &mut [u8]) -> Result<usize, Refusal> {
    product(first, second, out, |mark1, mark2| mark1 | mark2)
}

fn product(first: &[u8], second: &[u8], out: &mut [u8], joined: fn(u8, u8) -> u8) -> Result<usize, Refusal> {
    let first = Sheet::read(first, Part::First)?;
    let second = Sheet::read(second, Part::Second)?;
    if first.letters != second.letters {
        return Err(Refusal { number: 7, part: Part::Second, place: 0 });
    }
    let letters = first.letters;
    for count in [first.states * second.states, first.largest_size() * second.largest_size()] {
        if count > MOST {
            return Err(Refusal { number: 20, part: Part::Out, place: count });
        }
    }
    let leading = paired(first.leading().next, second.leading().next, letters);
    let mut progress = Vec::new();
    for state1 in 0..first.states {
        for state2 in 0..second.states {
            let (automaton1, automaton2) = (first.progress(state1), second.progress(state2));
            let mut marks = Vec::new();
            for &mark1 in automaton1.marks {
                marks.extend(automaton2.marks.iter().map(|&mark2| joined(mark1, mark2)));
            }
            progress.push((paired(automaton1.next, automaton2.next, letters), marks));
        }
    }
    fill(out, &Draft { letters, leading, progress }.pack())
}

/// The next states of two automata that move together: the pair (p, q) has the number p × (how many states the second has) + q.
fn paired(next1: &[u8], next2: &[u8], letters: usize) -> Vec<u8> {
    let states2 = (next2.len() / letters) as u8;
    let mut next = Vec::new();
    for row1 in next1.chunks_exact(letters) {
        for row2 in next2.chunks_exact(letters) {
            next.extend(row1.iter().zip(row2).map(|(&p, &q)| p * states2 + q));
        }
    }
    next
}

#[cfg(test)]
mod tests {
    use super::*;
    use crate::generate;
    use crate::random::Random;
    use crate::verdict::verdict;

    fn short_lasso(random: &mut Random, letters: usize) -> (Vec<u8>, Vec<u8>) {
        let (prefix, period) = (random.below(6), random.between(1, 6));
        (random.word(prefix, letters), random.word(period, letters))
    }

    #[test]
    fn the_complement_reverses_every_verdict() {
        let mut random = Random::new(4);
        for _ in 0..3000 {
            let sheet = generate::sheet(&mut random).pack();
            let mut turned = vec![0; sheet.len()];
            assert_eq!(complement(&sheet, &mut turned), Ok(sheet.len()));
            let (prefix, period) = short_lasso(&mut random, sheet[0] as usize);
            let given = verdict(&sheet, &prefix, &period).unwrap();
            let mut reversed = verdict(&turned, &prefix, &period).unwrap();
            reversed.accepted = !reversed.accepted;
            assert_eq!(given, reversed);
        }
    }

    #[test]
    fn products_say_both_or_either_of_lassos_that_close_in_both() {
        let mut random = Random::new(5);
        let mut closing = 0;
        for _ in 0..20_000 {
            let letters = random.between(1, 3);
            let mut sheet = || generate::sheet_of(&mut random, letters, |random| random.between(1, 4)).pack();
            let (first, second) = (sheet(), sheet());
            let (mut both, mut either) = (vec![0; 2000], vec![0; 2000]);
            let both_length = intersection(&first, &second, &mut both).unwrap();
            let either_length = union(&first, &second, &mut either).unwrap();
            let (prefix, period) = short_lasso(&mut random, letters);
            let [given1, given2, given_both, given_either] =
                [&first[..], &second, &both[..both_length], &either[..either_length]]
                    .map(|sheet| verdict(sheet, &prefix, &period).unwrap());
            // The product stands at the pair that the two stand at.
            let pair = |state1: usize, state2: usize| state1 * second[1] as usize + state2;
            if [given1, given2].iter().all(|given| (given.before, given.turns) == (0, 1)) {
                closing += 1;
                assert_eq!(given_both.leading, pair(given1.leading, given2.leading));
                assert_eq!(given_both.end, given1.end * second[2 + given2.leading] as usize + given2.end);
                assert_eq!(given_both.accepted, given1.accepted && given2.accepted);
                assert_eq!(given_either.accepted, given1.accepted || given2.accepted);
            }
        }
        assert!(closing > 5000, "{closing}");
    }
}
