//! number, read, write, read-show, write-show, import and durations.

use crate::by_lines::told::{filled, told};
use crate::by_lines::{bytes, each};
use crate::driver::line::{self, any_slice, print, NoCall};
use crate::layout;
use crate::library::{self, Cells, CellsMut};

pub fn number(words: &[&[u8]]) -> Result<String, NoCall> {
    let [text, place] = each(words)?;
    let (text, place) = (any_slice::<u8>(text)?, line::number(place)?);
    let call = |answer: CellsMut| library::number_read(Cells::from(&text), place as usize, answer);
    Ok(told(layout::NUMBER_READ_BYTES, call, |numbers| format!("number {} {}", numbers[0], numbers[1])))
}

pub fn read(words: &[&[u8]]) -> Result<String, NoCall> {
    let [text, out, seconds] = each(words)?;
    let (text, mut out, mut seconds) = (any_slice::<u8>(text)?, any_slice::<u8>(out)?, any_slice::<u16>(seconds)?);
    let call = |answer: CellsMut| {
        library::sheet_read(Cells::from(&text), CellsMut::from(&mut out), CellsMut::from(&mut seconds), answer)
    };
    let answer = told(layout::SHEET_READ_BYTES, call, two_numbers);
    Ok(format!("{answer} | {} {}", print(&out), print(&seconds)))
}

pub fn write(words: &[&[u8]]) -> Result<String, NoCall> {
    let [level, sheet, seconds, out] = each(words)?;
    let (level, sheet) = (line::number(level)? as usize, any_slice::<u8>(sheet)?);
    let (seconds, mut out) = (any_slice::<u16>(seconds)?, any_slice::<u8>(out)?);
    let call = |answer: CellsMut| {
        library::sheet_write(level, Cells::from(&sheet), Cells::from(&seconds), CellsMut::from(&mut out), answer)
    };
    let answer = filled(layout::SHEET_WRITE_BYTES, call);
    Ok(format!("{answer} | {}", print(&out)))
}

pub fn read_show(words: &[&[u8]]) -> Result<String, NoCall> {
    let [text, mut prefix, mut period] = bytes(words)?;
    let call = |answer: CellsMut| {
        library::show_read(Cells::from(&text), CellsMut::from(&mut prefix), CellsMut::from(&mut period), answer)
    };
    let answer = told(layout::SHOW_READ_BYTES, call, two_numbers);
    Ok(format!("{answer} | {} {}", print(&prefix), print(&period)))
}

pub fn write_show(words: &[&[u8]]) -> Result<String, NoCall> {
    let [prefix, period, mut out] = bytes(words)?;
    let call = |answer: CellsMut| {
        library::show_write(Cells::from(&prefix), Cells::from(&period), CellsMut::from(&mut out), answer)
    };
    let answer = filled(layout::SHOW_WRITE_BYTES, call);
    Ok(format!("{answer} | {}", print(&out)))
}

pub fn import(words: &[&[u8]]) -> Result<String, NoCall> {
    let [text, mut out] = bytes(words)?;
    let call = |answer: CellsMut| library::import(Cells::from(&text), CellsMut::from(&mut out), answer);
    let answer = filled(layout::IMPORT_BYTES, call);
    Ok(format!("{answer} | {}", print(&out)))
}

pub fn durations(words: &[&[u8]]) -> Result<String, NoCall> {
    let [prefix, period, seconds, out] = each(words)?;
    let ([prefix, period, mut out], seconds) = (bytes(&[prefix, period, out])?, any_slice::<u16>(seconds)?);
    let call = |answer: CellsMut| {
        let (prefix, period, seconds) = (Cells::from(&prefix), Cells::from(&period), Cells::from(&seconds));
        library::durations(prefix, period, seconds, CellsMut::from(&mut out), answer)
    };
    let answer = filled(layout::DURATIONS_BYTES, call);
    Ok(format!("{answer} | {}", print(&out)))
}

fn two_numbers(numbers: &[u64]) -> String {
    format!("filled {} {}", numbers[0], numbers[1])
}
