//! start, step and rest.

use crate::case::word;
use crate::cursor::{self, Cursor, Playing};
use crate::driver::calls::refused;
use crate::driver::line::{byte_slices, number, print, Cell, NoCall};
use crate::driver::random_line::{contents, spelled};
use crate::inclusion::Search;
use crate::random::Random;

pub fn start(words: &[&[u8]], _: &mut Search) -> Result<String, NoCall> {
    let [prefix] = byte_slices(words)?;
    Ok(format!("cursor {}", printed(cursor::start(&prefix))))
}

pub fn step(words: &[&[u8]], _: &mut Search) -> Result<String, NoCall> {
    let (cursor, [prefix, period]) = arguments(words)?;
    Ok(match cursor::step(cursor, &prefix, &period) {
        Ok((letter, further)) => format!("passed {letter} {}", printed(further)),
        Err(refusal) => format!("{} cursor {}", refused(refusal), printed(cursor)),
    })
}

pub fn rest(words: &[&[u8]], _: &mut Search) -> Result<String, NoCall> {
    let (cursor, [prefix, period]) = arguments(words)?;
    Ok(format!("rest {}", print(cursor::rest(cursor, &prefix, &period))))
}

fn arguments(words: &[&[u8]]) -> Result<(Cursor, [Vec<u8>; 2]), NoCall> {
    let [part, position, words @ ..] = words else {
        return Err(NoCall::Wrong);
    };
    let playing = match *part {
        b"opening" => Playing::Prefix,
        b"loop" => Playing::Period,
        _ => return Err(NoCall::Wrong),
    };
    let position = number(position)?;
    Ok((Cursor { playing, position }, byte_slices(words)?))
}

fn printed(cursor: Cursor) -> String {
    let part = match cursor.playing {
        Playing::Prefix => "opening",
        Playing::Period => "loop",
    };
    format!("{part} {}", cursor.position)
}

pub fn random_start(random: &mut Random, _: &mut Search) -> String {
    let prefix = any_word(random);
    spelled(random, &prefix)
}

/// The words of step and rest.
pub fn random_cursor(random: &mut Random, _: &mut Search) -> String {
    const HUGE: [u64; 8] =
        [u64::MAX, u64::MAX - 1, 1 << 63, (1 << 63) - 1, 1 << 32, u32::MAX as u64, 1 << 16, 18_446_744_073_709_550_000];
    let (prefix, period) = (any_word(random), any_word(random));
    let (part, length) =
        if random.once_in(2) { ("opening", prefix.len() as u64) } else { ("loop", period.len() as u64) };
    let position = match random.below(16) {
        0 => random.pick(&HUGE),
        1 => length,
        2 => length + 1,
        3 => (1 << 32) + random.below(length as usize + 1) as u64,
        4..=7 => length.saturating_sub(1),
        8 => random.draw() >> random.below(64),
        _ => random.below(length as usize + 1) as u64,
    };
    let part = if random.once_in(50) { random.pick(&["Loop", "first", "cursor", "open", "loops", "0"]) } else { part };
    format!("{part} {position} {} {}", spelled(random, &prefix), spelled(random, &period))
}

/// A word over any bytes: there is no sheet that limits them.
fn any_word(random: &mut Random) -> Vec<u8> {
    match random.below(16) {
        0..=2 => Vec::new(),
        3..=5 => {
            let length = random.between(1, 40);
            contents(random, length)
        }
        6 if random.once_in(100) => contents(random, u8::LONG),
        _ => word(random, 256),
    }
}
