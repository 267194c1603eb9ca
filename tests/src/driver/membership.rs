//! check and verdict.

use crate::case::{letters_of, put_unknown, word};
use crate::driver::calls::refused;
use crate::driver::line::{byte_slices, Cell, NoCall};
use crate::driver::random_line::spelled;
use crate::driver::random_sheets::sheet;
use crate::generate::{self, Draft};
use crate::inclusion::Search;
use crate::mix::of_sizes;
use crate::printed::verdict_words;
use crate::random::Random;
use crate::sheet::{Part, Sheet};

pub fn check(words: &[&[u8]], _: &mut Search) -> Result<String, NoCall> {
    let [sheet] = byte_slices(words)?;
    Ok(match Sheet::read(&sheet, Part::First) {
        Ok(sheet) => format!("valid {} {} {}", sheet.letters, sheet.states, sheet.largest_size()),
        Err(refusal) => refused(refusal),
    })
}

pub fn verdict(words: &[&[u8]], _: &mut Search) -> Result<String, NoCall> {
    let [sheet, prefix, period] = byte_slices(words)?;
    Ok(match crate::verdict::verdict(&sheet, &prefix, &period) {
        Ok(given) => verdict_words(&given),
        Err(refusal) => refused(refusal),
    })
}

pub fn random_check(random: &mut Random, _: &mut Search) -> String {
    let sheet = sheet(random);
    spelled(random, &sheet)
}

pub fn random_verdict(random: &mut Random, _: &mut Search) -> String {
    let sheet = if random.once_in(6) { winding(random).pack() } else { sheet(random) };
    let letters = letters_of(&sheet);
    let mut prefix = word(random, letters);
    let mut period = if random.once_in(10) { Vec::new() } else { word(random, letters) };
    for word in [&mut prefix, &mut period] {
        if random.once_in(400) {
            word.resize(u8::LONG, 0);
        }
        if random.once_in(10) {
            put_unknown(random, word, letters);
        }
    }
    [sheet, prefix, period].map(|slice| spelled(random, &slice)).join(" ")
}

/// A sheet whose closing numbers are large: each letter goes on from state to state, and from the last back to some state.
fn winding(random: &mut Random) -> Draft {
    let (states, size) = (generate::count(random), random.between(1, 6));
    let letters = random.between(1, 2);
    let mut draft = of_sizes(random, letters, states, size);
    let back = random.below(states);
    for (at, next) in draft.leading.iter_mut().enumerate() {
        let state = at / letters;
        *next = if state + 1 < states { state + 1 } else { back } as u8;
    }
    draft
}
