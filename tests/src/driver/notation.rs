//! number, read and write.

use crate::driver::calls::{filled, refused, room_needed};
use crate::driver::line::{self, print, slice, NoCall};
use crate::driver::random_line::{lent, spelled};
use crate::driver::random_seconds::{lent_seconds, seconds, some_seconds};
use crate::driver::random_sheets::{in_order, sheet};
use crate::driver::random_text::{any_text, damaged};
use crate::inclusion::Search;
use crate::random::Random;
use crate::sheet::{Part, Refusal, Sheet};
use crate::sheet_text::{self, text_of};
use crate::{case, numeral};

pub fn number(words: &[&[u8]], _: &mut Search) -> Result<String, NoCall> {
    let &[text, place] = words else {
        return Err(NoCall::Wrong);
    };
    let (text, place) = (slice::<u8>(text)?, line::number(place)?);
    Ok(match numeral::number(&text, place as usize) {
        Ok((value, next)) => format!("number {value} {next}"),
        Err(place) => refused(Refusal { number: 11, part: Part::First, place }),
    })
}

/// What was read is written as the same text.
pub fn read(words: &[&[u8]], _: &mut Search) -> Result<String, NoCall> {
    read_by(words, |text, out, seconds| {
        let (level, length) = sheet_text::read(text, out, seconds)?;
        let sheet = Sheet::read(&out[..length], Part::First).expect("a sheet that was read is in order");
        assert_eq!(text_of(level, &sheet, seconds).as_bytes(), text);
        Ok((level, length))
    })
}

/// What was written is read as the same sheet and, at level four, as the same seconds.
pub fn write(words: &[&[u8]], _: &mut Search) -> Result<String, NoCall> {
    write_by(words, |level, sheet, seconds, out| {
        let length = sheet_text::write(level, sheet, seconds, out)?;
        let again = sheet_text::sheet_of(&out[..length]).expect("a text that was written is in order");
        assert_eq!((again.level as u64, again.sheet.pack().as_slice()), (level, sheet));
        let letters = if level == 4 { again.sheet.letters } else { 0 };
        assert_eq!(again.seconds, seconds[..letters]);
        Ok(length)
    })
}

/// What is printed for the words of a line by some way to read.
pub fn read_by(
    words: &[&[u8]],
    read: impl FnOnce(&[u8], &mut [u8], &mut [u16]) -> Result<(usize, usize), Refusal>,
) -> Result<String, NoCall> {
    let &[text, out, seconds] = words else {
        return Err(NoCall::Wrong);
    };
    let (text, mut out, mut seconds) = (slice::<u8>(text)?, slice(out)?, slice(seconds)?);
    let result = read(&text, &mut out, &mut seconds);
    let answer = result.map_or_else(refused, |(level, length)| format!("filled {level} {length}"));
    Ok(format!("{answer} | {} {}", print(&out), print(&seconds)))
}

/// What is printed for the words of a line by some way to write.
pub fn write_by(
    words: &[&[u8]],
    write: impl FnOnce(u64, &[u8], &[u16], &mut [u8]) -> Result<usize, Refusal>,
) -> Result<String, NoCall> {
    let &[level, sheet, seconds, out] = words else {
        return Err(NoCall::Wrong);
    };
    let (level, sheet) = (line::number(level)?, slice::<u8>(sheet)?);
    let (seconds, mut out) = (slice::<u16>(seconds)?, slice(out)?);
    let answer = filled(write(level, &sheet, &seconds, &mut out));
    Ok(format!("{answer} | {}", print(&out)))
}

pub fn random_number(random: &mut Random, _: &mut Search) -> String {
    let (text, digits) = any_text(random);
    let place = match random.below(16) {
        0 => random.pick(&[u64::MAX, 1 << 63, 1 << 32, u32::MAX as u64]),
        1 => text.len() as u64 + random.below(3) as u64,
        2..=5 => random.below(text.len() + 1) as u64,
        _ => digits as u64,
    };
    format!("{} {place}", spelled(random, &text))
}

pub fn random_read(random: &mut Random, _: &mut Search) -> String {
    let draft = in_order(random);
    let packed = draft.pack();
    let level = random.pick(&[3, 4, 4]);
    let sheet = Sheet::read(&packed, Part::First).expect("the sheet is in order");
    let mut text = text_of(level, &sheet, &seconds(random, draft.letters)).into_bytes();
    if !random.once_in(3) {
        text = damaged(random, text);
    }
    let (out, seconds) = (lent(random, packed.len()), lent_seconds(random, draft.letters));
    let [text, out] = [text, out].map(|slice| spelled(random, &slice));
    format!("{text} {out} {}", spelled(random, &seconds))
}

pub fn random_write(random: &mut Random, _: &mut Search) -> String {
    let level = match random.below(16) {
        0 => random.pick(&[0, 1, 2, 5, 6, 7, 259, 260, 1 << 16 | 3, 1 << 32 | 4, 1 << 63, u64::MAX]),
        1 => random.draw() >> random.below(64),
        2..=6 => 3,
        _ => 4,
    };
    let sheet = sheet(random);
    let seconds = some_seconds(random, case::letters_of(&sheet));
    let needed = room_needed(sheet_text::write(level, &sheet, &seconds, &mut []));
    let out = lent(random, needed);
    let [sheet, out] = [sheet, out].map(|slice| spelled(random, &slice));
    format!("{level} {sheet} {} {out}", spelled(random, &seconds))
}
