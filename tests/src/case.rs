//! One call with all the slices that it is lent, and cases at random.

use crate::export::{Export, Slice, COMPARE, EXPORTS, VERDICT};
use crate::guarded::Placement;
use crate::inclusion::Search;
use crate::random::Random;
use crate::sheet::MOST;

/// The longest word that a case of the players' calls lends.
pub const LONGEST_WORD: usize = 100_000;

pub struct Case {
    pub export: &'static Export,
    pub kind: &'static str,
    pub numbers: Vec<usize>,
    /// In the order of the call's arguments; the last is the answer slice.
    pub slices: Vec<Slice>,
    pub placements: Vec<Placement>,
    /// Whether two slices that are only read are one and the same (opening and loop, or both sheets).
    pub shared: bool,
}

impl Case {
    /// A verdict with an answer slice of the right length.
    pub fn verdict(sheet: &[u8], prefix: &[u8], period: &[u8]) -> Self {
        Self::paper(&VERDICT, [sheet, prefix, period].map(<[u8]>::to_vec).into())
    }

    /// A comparison with room for a prefix and a period of those lengths.
    pub fn compare(first: &[u8], second: &[u8], prefix: usize, period: usize) -> Self {
        Self::paper(&COMPARE, vec![first.to_vec(), second.to_vec(), vec![0xcc; prefix], vec![0xdd; period]])
    }

    fn paper(export: &'static Export, slices: Vec<Vec<u8>>) -> Self {
        Self::of_slices(export, slices.into_iter().map(Slice::Bytes).collect())
    }

    /// The call on these slices and an answer slice of the right length.
    pub fn of_slices(export: &'static Export, mut slices: Vec<Slice>) -> Self {
        slices.push(Slice::Bytes(vec![0xee; export.answer_bytes]));
        let placements = vec![Placement::End; slices.len()];
        Case { export, kind: "paper", numbers: Vec::new(), slices, placements, shared: false }
    }

    /// The names of its slices.
    pub fn names(&self) -> impl Iterator<Item = &'static str> {
        self.export.slices.iter().copied().chain(["answer"])
    }

    /// The answer slice before the call.
    pub fn answer(&self) -> &[u8] {
        match self.slices.last() {
            Some(Slice::Bytes(answer)) => answer,
            _ => unreachable!("the answer slice is the last, of bytes"),
        }
    }

    /// The case of a seed: four in five are of the players' calls.
    pub fn random(seed: u64, search: &mut Search) -> Self {
        let mut random = Random::new(seed);
        let at = match random.below(20) {
            0..8 => 0,
            8..16 => 1,
            _ => random.between(2, EXPORTS.len() - 1),
        };
        Self::random_of(&EXPORTS[at], &mut random, search)
    }

    /// A case of one call.
    pub fn random_of(export: &'static Export, random: &mut Random, search: &mut Search) -> Self {
        let given = (export.random)(random, search);
        let mut slices = given.slices;
        let alike = export.readable.is_some_and(|[one, other]| slices[one] == slices[other]);
        let shared = alike && random.once_in(2);
        slices.push(Slice::Bytes(answer(random, export.answer_bytes)));
        let placements = slices.iter().map(|slice| placement(random, slice)).collect();
        Case { export, kind: given.kind, numbers: given.numbers, slices, placements, shared }
    }
}

fn placement(random: &mut Random, slice: &Slice) -> Placement {
    match random.below(if slice.is_empty() { 8 } else { 4 }) {
        0 => Placement::Start,
        1 => Placement::End,
        2..=3 => Placement::Middle(random.below(300)),
        4..=5 => Placement::Dangling,
        _ => Placement::Null,
    }
}

/// How many letters a packed sheet has; where it is not in order, some count.
pub fn letters_of(sheet: &[u8]) -> usize {
    sheet.first().map_or(1, |&letters| (letters as usize).clamp(1, MOST))
}

/// Puts one to three letters that are out of range into a word, unless it is empty: at its start, at its end, or anywhere.
pub fn put_unknown(random: &mut Random, word: &mut [u8], letters: usize) {
    let Some(last) = word.len().checked_sub(1) else { return };
    for _ in 0..random.between(1, 3) {
        let (at, any) = (random.between(0, last), random.between(letters, 255));
        word[random.pick(&[0, last, at, at])] = random.pick(&[letters, letters, 255, any]) as u8;
    }
}

/// Letters at random, one letter again and again, or a short word again and again; mostly few, now and then very many.
pub fn word(random: &mut Random, letters: usize) -> Vec<u8> {
    let length = match random.below(2000) {
        0 => random.between(LONGEST_WORD / 10, LONGEST_WORD),
        1..=9 => random.below(5000),
        10..=199 => random.below(100),
        _ => random.below(9),
    };
    let block = match random.below(4) {
        0 => 1,
        1 => random.between(1, 8),
        _ => length,
    };
    let block = random.word(block.max(1), letters);
    block.iter().copied().cycle().take(length).collect()
}

/// An answer slice with anything in it: of the right length, longer, or too short.
fn answer(random: &mut Random, due: usize) -> Vec<u8> {
    let length = match random.below(16) {
        0 => random.below(due),
        1 => due - 1,
        2..=4 => due + random.between(1, 64),
        _ => due,
    };
    random.bytes(length)
}

/// About as much room as is needed: enough, just enough, one cell too few, none.
pub fn room_length(random: &mut Random, needed: usize) -> usize {
    match random.below(16) {
        0 => 0,
        1 => needed.saturating_sub(1),
        2 => random.below(needed + 1),
        3..=6 => needed + 1,
        7..=9 => needed + random.below(100),
        _ => needed,
    }
}
