//! The verdict on a lasso: a prefix (the opening), then a period (the loop) for ever.

use crate::sheet::{Automaton, Part, Refusal, Sheet, MOST};

#[derive(Clone, Copy, Debug, PartialEq, Eq)]
pub struct Verdict {
    pub accepted: bool,
    /// The closing numbers i and j: turns before the leading automaton repeats a state, and turns until it is back there.
    pub before: usize,
    pub turns: usize,
    /// The leading state after the prefix and i turns, and its progress state after j turns.
    pub leading: usize,
    pub end: usize,
}

pub fn verdict(sheet: &[u8], prefix: &[u8], period: &[u8]) -> Result<Verdict, Refusal> {
    Judge::new(sheet)?.verdict(prefix, period)
}

/// A sheet in order, with the table of its leading automaton: it judges one lasso after the other.
pub struct Judge<'a> {
    sheet: Sheet<'a>,
    leading: Table,
}

impl<'a> Judge<'a> {
    pub fn new(sheet: &'a [u8]) -> Result<Self, Refusal> {
        let sheet = Sheet::read(sheet, Part::First)?;
        let leading = Table::new(sheet.leading(), sheet.letters);
        Ok(Judge { sheet, leading })
    }

    pub fn letters(&self) -> usize {
        self.sheet.letters
    }

    pub fn verdict(&self, prefix: &[u8], period: &[u8]) -> Result<Verdict, Refusal> {
        let mut state = self.leading.pass(0, prefix, Part::Opening)?;
        if period.is_empty() {
            return Err(Refusal { number: 8, part: Part::Loop, place: 0 });
        }
        let mut first_turn = [None; MOST];
        let mut turn = 0;
        let before = loop {
            if let Some(before) = first_turn[state as usize] {
                break before;
            }
            first_turn[state as usize] = Some(turn);
            state = self.leading.pass(state, period, Part::Loop)?;
            turn += 1;
        };
        let turns = turn - before;

        let leading = state as usize;
        let progress = self.sheet.progress(leading);
        let table = Table::new(progress, self.sheet.letters);
        let end = (0..turns).try_fold(0, |state, _| table.pass(state, period, Part::Loop))? as usize;
        Ok(Verdict { accepted: progress.marks[end] == 1, before, turns, leading, end })
    }
}

/// Next states by letter, then by state: a step is one load whose address waits for the last state alone, and no index needs a check.
struct Table {
    next: [[u8; 256]; MOST],
    letters: usize,
}

impl Table {
    fn new(automaton: Automaton, letters: usize) -> Self {
        let mut next = [[0; 256]; MOST];
        for (state, row) in automaton.next.chunks_exact(letters).enumerate() {
            for (letter, &to) in row.iter().enumerate() {
                next[letter][state] = to;
            }
        }
        Table { next, letters }
    }

    /// The state after a word, or refusal 9 at its first letter that is out of range. A block's largest letter is kept beside the state:
    /// that takes no time, since each step waits for its load, where a branch for each letter would.
    fn pass(&self, from: u8, word: &[u8], part: Part) -> Result<u8, Refusal> {
        const BLOCK: usize = 4096;
        let mut state = from;
        for (block, chunk) in word.chunks(BLOCK).enumerate() {
            let mut most = 0;
            for &letter in chunk {
                most = letter.max(most);
                state = self.next[letter as usize % MOST][state as usize];
            }
            if most as usize >= self.letters {
                let at = chunk.iter().position(|&letter| letter as usize >= self.letters).expect("the largest is");
                return Err(Refusal { number: 9, part, place: block * BLOCK + at });
            }
        }
        Ok(state)
    }
}

#[cfg(test)]
mod tests {
    use super::*;
    use crate::case::put_unknown;
    use crate::generate;
    use crate::naive::Family;
    use crate::pass::{pass, Pass};
    use crate::random::Random;

    #[test]
    fn agrees_with_the_definitions_taken_word_for_word() {
        let mut random = Random::new(1);
        let (mut before, mut turns) = (0, 0);
        for _ in 0..20_000 {
            let sheet = generate::sheet(&mut random);
            let family = Family::unpack(&sheet.pack());
            let (prefix_length, period_length) = (random.below(9), random.between(1, 9));
            let prefix = random.word(prefix_length, sheet.letters);
            let period = random.word(period_length, sheet.letters);
            let given = verdict(&sheet.pack(), &prefix, &period).unwrap();
            assert_eq!((given.before, given.turns), family.closing_numbers(&prefix, &period));
            assert_eq!((given.accepted, given.leading, given.end), family.judge(&prefix, &period));
            before += (given.before > 0) as usize;
            turns += (given.turns > 1) as usize;
        }
        assert!(before > 1000 && turns > 1000, "the mix has lassos that do not close");
    }

    #[test]
    fn one_pass_comes_to_what_its_definition_says() {
        let mut random = Random::new(3);
        for length in [0, 1, 2, 4095, 4096, 4097, 8192, 9999].repeat(50) {
            let bytes = generate::sheet(&mut random).pack();
            let sheet = Sheet::read(&bytes, Part::First).unwrap();
            let mut prefix = random.word(length, sheet.letters);
            if random.once_in(2) {
                put_unknown(&mut random, &mut prefix, sheet.letters);
            }
            let due = match pass(&sheet, &prefix) {
                Pass::Reached(state) => Ok(state as u8),
                Pass::Unknown(place) => Err(Refusal { number: 9, part: Part::Opening, place }),
            };
            let table = Table::new(sheet.leading(), sheet.letters);
            assert_eq!(table.pass(0, &prefix, Part::Opening), due);
        }
    }

    #[test]
    fn a_letter_out_of_range_is_found_in_every_block() {
        let sheet = generate::sheet_of(&mut Random::new(2), 3, generate::count).pack();
        for at in [0, 1, 4095, 4096, 4097, 9999] {
            let mut word = vec![2; 10_000];
            word[at] = 3;
            let refused = |part| Err(Refusal { number: 9, part, place: at });
            assert_eq!(verdict(&sheet, &word, &[]), refused(Part::Opening));
            assert_eq!(verdict(&sheet, &[0], &word), refused(Part::Loop));
        }
    }
}
