//! The prefix (the opening) judged and walked, from F-4's words: the state after all of it, else its first letter that is out of range.

use crate::sheet::Sheet;

#[derive(Clone, Copy, Debug, PartialEq, Eq)]
pub enum Pass {
    /// The leading state after the whole prefix.
    Reached(usize),
    /// The position of the first letter that is out of range.
    Unknown(usize),
}

pub fn pass(sheet: &Sheet, prefix: &[u8]) -> Pass {
    match prefix.iter().position(|&letter| letter as usize >= sheet.letters) {
        Some(position) => Pass::Unknown(position),
        None => Pass::Reached(walk(sheet, 0, prefix)),
    }
}

/// The leading state after a word whose letters are in range.
pub fn walk(sheet: &Sheet, from: usize, word: &[u8]) -> usize {
    let next = sheet.leading().next;
    word.iter().fold(from, |state, &letter| next[state * sheet.letters + letter as usize] as usize)
}

/// What the pass holds between two parts of a prefix, as its answer tells it.
#[derive(Clone, Copy, Debug, PartialEq, Eq)]
pub struct Held {
    pub failed: bool,
    /// 0 once it failed.
    pub state: usize,
    /// How many letters were passed, or the position of the first that is out of range.
    pub position: usize,
}

/// The pass over one more part. A state that the sheet has not counts as failed where it stands; a position is told as far as a number goes.
pub fn pass_on(sheet: &Sheet, held: Held, part: &[u8]) -> Held {
    let failed = |position| Held { failed: true, state: 0, position };
    if held.failed || held.state >= sheet.states {
        return failed(held.position);
    }
    match part.iter().position(|&letter| letter as usize >= sheet.letters) {
        Some(at) => failed(held.position.saturating_add(at)),
        None => {
            let position = held.position.saturating_add(part.len());
            Held { failed: false, state: walk(sheet, held.state, part), position }
        }
    }
}

#[cfg(test)]
mod tests {
    use super::*;
    use crate::generate;
    use crate::naive::Family;
    use crate::random::Random;
    use crate::sheet::Part;

    #[test]
    fn the_state_is_where_a_lasso_of_the_prefix_waits() {
        let mut random = Random::new(4);
        let mut above = 0;
        for _ in 0..5000 {
            let draft = generate::sheet(&mut random);
            let bytes = draft.pack();
            let sheet = Sheet::read(&bytes, Part::First).unwrap();
            let length = random.below(9);
            let mut prefix = random.word(length, draft.letters);
            let waits = Family::unpack(&bytes).standing(&prefix, &[]).waits;
            assert_eq!(pass(&sheet, &prefix), Pass::Reached(waits));
            above += (waits > 0) as usize;
            for letter in [draft.letters as u8, 255] {
                prefix.push(letter);
                assert_eq!(pass(&sheet, &prefix), Pass::Unknown(length));
            }
        }
        assert!(above > 1000, "{above}");
    }
}
