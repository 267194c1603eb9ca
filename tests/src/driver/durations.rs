//! durations.

use crate::driver::calls::{filled, room_needed};
use crate::driver::line::{print, slice, Cell, NoCall};
use crate::driver::random_line::{lent, spelled};
use crate::driver::random_seconds::{put_bad, seconds};
use crate::driver::random_show::{any_lasso, faulty_lasso};
use crate::inclusion::Search;
use crate::random::Random;
use crate::running_sheet::{self, LONGEST};
use crate::sheet::Refusal;

/// The letters that there are.
const BYTES: usize = 256;

pub fn durations(words: &[&[u8]], _: &mut Search) -> Result<String, NoCall> {
    durations_by(words, running_sheet::write)
}

/// What is printed for the words of a line by some way to write.
pub fn durations_by(
    words: &[&[u8]],
    write: impl FnOnce(&[u8], &[u8], &[u16], &mut [u8]) -> Result<usize, Refusal>,
) -> Result<String, NoCall> {
    let &[prefix, period, seconds, out] = words else {
        return Err(NoCall::Wrong);
    };
    let (prefix, period) = (slice::<u8>(prefix)?, slice::<u8>(period)?);
    let (seconds, mut out) = (slice::<u16>(seconds)?, slice(out)?);
    let answer = filled(write(&prefix, &period, &seconds, &mut out));
    Ok(format!("{answer} | {}", print(&out)))
}

/// Every fault comes alone and with others.
pub fn random_durations(random: &mut Random, _: &mut Search) -> String {
    let count = cell_count(random);
    let (prefix, period) = lasso(random, count);
    let mut seconds = seconds(random, count);
    if random.once_in(4) {
        put_bad(random, &mut seconds);
    }
    let needed = room_needed(running_sheet::write(&prefix, &period, &seconds, &mut []));
    // A running sheet of the longest parts is no line at random: `long_durations` has those.
    let out = lent(random, if needed > u8::LONG { 20 } else { needed });
    let [prefix, period, out] = [prefix, period, out].map(|slice| spelled(random, &slice));
    [prefix, period, spelled(random, &seconds), out].join(" ")
}

/// How many letters have a cell: about as many as a sheet has, or as there are.
fn cell_count(random: &mut Random) -> usize {
    match random.below(32) {
        0 => 0,
        1..=10 => random.pick(&[1, 2, 31, 32, 33]),
        11..=18 => random.pick(&[BYTES - 1, BYTES, BYTES + 1]),
        19 if random.once_in(16) => u16::LONG,
        _ => random.between(1, 40),
    }
}

/// A lasso for so many cells, with letters that have none, without a period, or with parts that are about as long as they may be.
fn lasso(random: &mut Random, count: usize) -> (Vec<u8>, Vec<u8>) {
    let letters = count.min(BYTES);
    let (mut prefix, mut period) = match random.below(4) {
        0 if letters < BYTES => faulty_lasso(random, letters),
        0 => (any_lasso(random, letters).0, Vec::new()),
        _ => any_lasso(random, letters),
    };
    let parts_are_long = random.once_in(6);
    for part in [&mut prefix, &mut period] {
        // The last letter that has a cell.
        if let (Some(last), Some(letter)) = (letters.checked_sub(1), part.last_mut()) {
            if random.once_in(4) {
                *letter = last as u8;
            }
        }
        if parts_are_long && random.once_in(2) {
            let length = random.pick(&[LONGEST, LONGEST + 1, LONGEST + 1, LONGEST + 4000]);
            part.resize(length, random.below(letters) as u8);
        }
    }
    (prefix, period)
}
