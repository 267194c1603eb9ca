//! start, step, rest and pass.

use crate::by_lines::told::{numbers, part, told};
use crate::by_lines::{bytes, each};
use crate::driver::line::{self, any_slice, print, NoCall};
use crate::layout::{CURSOR_REST_BYTES, CURSOR_START_BYTES, CURSOR_STEP_BYTES, PASS_ON_BYTES, PASS_START_BYTES};
use crate::library::{self, Cells, CellsMut};

/// A cursor's parts.
const OPENING: u64 = 2;
const LOOP: u64 = 3;

/// The most parts of a prefix that a line has.
const MOST_PARTS: usize = 8;

pub fn start(words: &[&[u8]]) -> Result<String, NoCall> {
    let [prefix] = bytes(words)?;
    let call = |answer: CellsMut| library::cursor_start(Cells::from(&prefix), answer);
    Ok(told(CURSOR_START_BYTES, call, |numbers| cursor(numbers[0], numbers[1])))
}

pub fn step(words: &[&[u8]]) -> Result<String, NoCall> {
    let Walk { playing, position, prefix, period } = Walk::read(words)?;
    let call = |answer: CellsMut| {
        library::cursor_step(playing as usize, position as usize, Cells::from(&prefix), Cells::from(&period), answer)
    };
    Ok(match numbers(CURSOR_STEP_BYTES, call) {
        Ok(numbers) => format!("passed {} {} {}", numbers[0], part(numbers[1]), numbers[2]),
        // The cursor stays as it was.
        Err(refused) => format!("{refused} {}", cursor(playing, position)),
    })
}

pub fn rest(words: &[&[u8]]) -> Result<String, NoCall> {
    let Walk { playing, position, prefix, period } = Walk::read(words)?;
    let call = |answer: CellsMut| {
        library::cursor_rest(playing as usize, position as usize, Cells::from(&prefix), Cells::from(&period), answer)
    };
    Ok(told(CURSOR_REST_BYTES, call, |numbers| {
        let slice = match numbers[0] {
            OPENING => &prefix,
            LOOP => &period,
            other => panic!("a cursor is in no part {other}"),
        };
        let (offset, length) = (numbers[1] as usize, numbers[2] as usize);
        format!("rest {}", print(&slice[offset..offset + length]))
    }))
}

/// The parts one after the other, each from what the pass held before it.
pub fn pass(words: &[&[u8]]) -> Result<String, NoCall> {
    let [sheet, parts @ ..] = words else {
        return Err(NoCall::Wrong);
    };
    if !(1..=MOST_PARTS).contains(&parts.len()) {
        return Err(NoCall::Wrong);
    }
    let sheet: Vec<u8> = any_slice(sheet)?;
    let parts: Vec<Vec<u8>> = parts.iter().map(|part| any_slice(part)).collect::<Result<_, _>>()?;
    let start = numbers(PASS_START_BYTES, library::pass_start);
    let passed = parts.iter().fold(start, |held, part| {
        let [failed, state, position] = held?[..] else { unreachable!("the pass holds three numbers") };
        numbers(PASS_ON_BYTES, |answer| {
            let [failed, state, position] = [failed, state, position].map(|number| number as usize);
            library::pass_on(Cells::from(&sheet), failed, state, position, Cells::from(part), answer)
        })
    });
    Ok(match passed {
        Ok(held) if held[0] == 0 => format!("reached {}", held[1]),
        Ok(held) => format!("unknown {}", held[2]),
        Err(refused) => refused,
    })
}

fn cursor(playing: u64, position: u64) -> String {
    format!("cursor {} {position}", part(playing))
}

/// The words of step and rest.
struct Walk {
    playing: u64,
    position: u64,
    prefix: Vec<u8>,
    period: Vec<u8>,
}

impl Walk {
    fn read(words: &[&[u8]]) -> Result<Self, NoCall> {
        let [playing, position, prefix, period] = each(words)?;
        let playing = match playing {
            b"opening" => OPENING,
            b"loop" => LOOP,
            _ => return Err(NoCall::Wrong),
        };
        Ok(Walk { playing, position: line::number(position)?, prefix: any_slice(prefix)?, period: any_slice(period)? })
    }
}
