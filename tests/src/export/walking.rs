//! The cursor's calls and the pass over a prefix.

use crate::case::letters_of;
use crate::cursor::{self, Cursor, Playing};
use crate::export::{bytes, bytes_of, number_of, words, Given, Slice, LINE};
use crate::inclusion::Search;
use crate::layout::Told;
use crate::pass::{pass_on as go_on, Held};
use crate::random::Random;
use crate::sheet::{Part, Refusal, Sheet};

const OPENING: usize = Part::Opening as usize;
const LOOP: usize = Part::Loop as usize;

pub fn cursor_start(_: &[usize], slices: &mut [Slice], _: &mut Search) -> Told {
    let [prefix] = bytes(slices);
    let Cursor { playing, position } = cursor::start(prefix);
    Ok(vec![part_of(playing), position as usize])
}

pub fn cursor_step(numbers: &[usize], slices: &mut [Slice], _: &mut Search) -> Told {
    let [prefix, period] = bytes(slices);
    let (letter, further) = match cursor_of(numbers) {
        Some(cursor) => cursor::step(cursor, prefix, period)?,
        // A part that has no positions.
        None if period.is_empty() => return Err(Refusal { number: 8, part: Part::Loop, place: 0 }),
        None => return Err(Refusal { number: 24, part: Part::Cursor, place: numbers[1] }),
    };
    Ok(vec![letter as usize, part_of(further.playing), further.position as usize])
}

pub fn cursor_rest(numbers: &[usize], slices: &mut [Slice], _: &mut Search) -> Told {
    let [prefix, period] = bytes(slices);
    let rest = cursor_of(numbers).map_or(0, |cursor| cursor::rest(cursor, prefix, period).len());
    Ok(if rest == 0 { vec![OPENING, 0, 0] } else { vec![numbers[0], numbers[1], rest] })
}

fn cursor_of(numbers: &[usize]) -> Option<Cursor> {
    let playing = match numbers[0] {
        OPENING => Playing::Prefix,
        LOOP => Playing::Period,
        _ => return None,
    };
    Some(Cursor { playing, position: numbers[1] as u64 })
}

fn part_of(playing: Playing) -> usize {
    match playing {
        Playing::Prefix => OPENING,
        Playing::Period => LOOP,
    }
}

pub fn pass_start(_: &[usize], _: &mut [Slice], _: &mut Search) -> Told {
    Ok(vec![0, 0, 0])
}

pub fn pass_on(numbers: &[usize], slices: &mut [Slice], _: &mut Search) -> Told {
    let [sheet, part] = bytes(slices);
    let sheet = Sheet::read(sheet, Part::First)?;
    let held = Held { failed: numbers[0] != 0, state: numbers[1], position: numbers[2] };
    let Held { failed, state, position } = go_on(&sheet, held, part);
    Ok(vec![failed as usize, state, position])
}

/// Now and then a part that has no positions, or one that is 2 or 3 in its low bits alone.
pub fn random_cursor(random: &mut Random, search: &mut Search) -> Given {
    const OTHERS: [usize; 9] = [0, 1, 4, 6, 7, 258, 1 << 32 | 2, 1 << 63 | 3, usize::MAX];
    let words = loop {
        let words = words(random, search, "step");
        if ["opening", "loop"].contains(&words[0].as_str()) {
            break words;
        }
    };
    let part = match words[0].as_str() {
        _ if random.once_in(6) => random.pick(&OTHERS),
        "opening" => OPENING,
        _ => LOOP,
    };
    let slices = words[2..].iter().map(|word| bytes_of(word)).collect();
    Given { kind: LINE, numbers: vec![part, number_of(&words[1])], slices }
}

/// A sheet with one part, and numbers held: mostly such as a pass over that sheet holds, else any.
pub fn random_pass_on(random: &mut Random, search: &mut Search) -> Given {
    let words = words(random, search, "pass");
    let (sheet, part) = (bytes_of(&words[0]), bytes_of(&words[1]));
    let Slice::Bytes(packed) = &sheet else { unreachable!("a sheet is of bytes") };
    let states = packed.get(1).map_or(1, |&states| states.max(1) as usize);
    let any = random.draw() as usize >> random.below(64);
    let failed = if random.once_in(6) { random.pick(&[1, 1, 2, 1 << 32, usize::MAX, any]) } else { 0 };
    let below = random.below(states);
    let state = if random.once_in(8) { random.pick(&[states, 31, 32, 255, 256, 1 << 32, any]) } else { below };
    let near = letters_of(packed);
    let position = random.pick(&[0, 1, near, any, any, usize::MAX, usize::MAX - near]);
    Given { kind: LINE, numbers: vec![failed, state, position], slices: vec![sheet, part] }
}
