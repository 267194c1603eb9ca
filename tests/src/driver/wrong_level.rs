//! Readers and writers that are wrong about level four, or about level three beside it, in one way each: the stored rows must find each,
//! and so must lines at random.

use crate::driver::calls;
use crate::driver::notation::{read_by, write_by};
use crate::inclusion::Search;
use crate::lent::{fill, room};
use crate::sheet::{Part, Refusal, Sheet, MOST};
use crate::sheet_text::{self, sheet_of, text_of};

/// Reading: level three judges the seconds' room, or clears them; the seconds are filled though the out slice is too short, or as far as
/// they go; the out slice is filled though the seconds' is too short; a cell past the last letter is cleared; the seconds' room is judged
/// before the out slice, or before the text; rows out of turn are taken; the level told is always 3; 0 is taken; 1000 is 14; 14 at the
/// row's start, or of the seconds, or after both 21; seconds with the low byte alone.
pub const READERS: [&str; 16] = [
    "read-three-judged",
    "read-three-cleared",
    "filled-though-refused",
    "filled-as-far-as-they-go",
    "out-filled-though-refused",
    "past-cleared",
    "seconds-before-out",
    "seconds-before-text",
    "any-turn",
    "always-three",
    "zero-read",
    "thousand-is-14",
    "14-at-the-row",
    "14-of-the-seconds",
    "14-after-room",
    "low-byte-read",
];

/// Writing: level three judges the seconds; 14 after the out slice's 21, or before the seconds'; the out slice's 21 before the seconds';
/// 10 after the sheet, or after all; the level's low byte or low half alone; 14 for cells past the last letter; 0 or 1000 is written; the
/// last bad cell is told; the seconds' room is told as what there is; level four without its block; seconds with the low byte alone.
pub const WRITERS: [&str; 15] = [
    "write-three-judged",
    "14-last",
    "14-before-room",
    "out-before-seconds",
    "10-after-sheet",
    "10-last",
    "level-by-low-byte",
    "level-by-low-half",
    "past-judged",
    "zero-written",
    "thousand-written",
    "last-bad-cell",
    "room-told-as-lent",
    "no-block",
    "low-byte-written",
];

pub fn kinds() -> impl Iterator<Item = &'static str> {
    READERS.into_iter().chain(WRITERS)
}

/// What is printed for a line by a driver that reads or writes in that wrong way; its other calls are right.
pub fn answer(kind: &str, line: &[u8], search: &mut Search) -> Vec<u8> {
    wrong(kind, line).unwrap_or_else(|| calls::answer(line, search))
}

/// The same where the line is of the call that is wrong.
pub fn wrong(kind: &str, line: &[u8]) -> Option<Vec<u8>> {
    let mut words = line.split(|&byte| byte == b' ');
    let name = words.next()?;
    let words: Vec<&[u8]> = words.collect();
    let printed = match name {
        b"read" if READERS.contains(&kind) => read_by(&words, |text, out, seconds| read(kind, text, out, seconds)),
        b"write" if WRITERS.contains(&kind) => {
            write_by(&words, |level, sheet, seconds, out| write(kind, level, sheet, seconds, out))
        }
        _ => return None,
    };
    Some(printed.map_or_else(|_| b"no call".to_vec(), String::into_bytes))
}

fn read(kind: &str, text: &[u8], out: &mut [u8], seconds: &mut [u16]) -> Result<(usize, usize), Refusal> {
    let written = match (kind, sheet_of(text)) {
        ("seconds-before-text", Err(refusal)) => {
            room(Part::Seconds, seconds.len(), letters_told(text))?;
            return Err(refusal);
        }
        ("any-turn", Err(Refusal { number: 12, .. })) => sheet_of(&with_rows(text, |rows| rows.sort()))?,
        ("zero-read", Err(Refusal { number: 14, .. })) => {
            let mut written = sheet_of(&with_ones(text))?;
            with_rows(text, |rows| {
                for (cell, row) in written.seconds.iter_mut().zip(rows) {
                    *cell = if row.ends_with(" 0") { 0 } else { *cell };
                }
            });
            written
        }
        ("14-after-room", Err(refusal @ Refusal { number: 14, .. })) => {
            let written = sheet_of(&with_ones(text))?;
            room(Part::Out, out.len(), written.sheet.pack().len())?;
            room(Part::Seconds, seconds.len(), written.seconds.len())?;
            return Err(refusal);
        }
        ("thousand-is-14", Err(refusal)) if text.get(refusal.place..).is_some_and(|rest| rest.starts_with(b"1000")) => {
            return Err(Refusal { number: 14, ..refusal });
        }
        ("14-at-the-row", Err(Refusal { number: 14, part, place })) => {
            let row = text[..place].iter().rposition(|&byte| byte == b'\n').map_or(0, |feed| feed + 1);
            return Err(Refusal { number: 14, part, place: row });
        }
        ("14-of-the-seconds", Err(Refusal { number: 14, place, .. })) => {
            return Err(Refusal { number: 14, part: Part::Seconds, place });
        }
        (_, written) => written?,
    };
    let (packed, mut given) = (written.sheet.pack(), written.seconds);
    let needed = if kind == "read-three-judged" { written.sheet.letters } else { given.len() };
    if kind == "low-byte-read" {
        given.iter_mut().for_each(|cell| *cell &= 255);
    }
    let fits = given.len().min(seconds.len());
    match kind {
        "filled-though-refused" if fits == given.len() => seconds[..fits].copy_from_slice(&given),
        "filled-as-far-as-they-go" => seconds[..fits].copy_from_slice(&given[..fits]),
        "seconds-before-out" => room(Part::Seconds, seconds.len(), needed)?,
        "out-filled-though-refused" => drop(fill(out, &packed)?),
        _ => {}
    }
    room(Part::Out, out.len(), packed.len())?;
    room(Part::Seconds, seconds.len(), needed)?;
    seconds[..given.len()].copy_from_slice(&given);
    match kind {
        "past-cleared" if written.level == 4 => seconds[given.len()..].fill(0),
        "read-three-cleared" if written.level == 3 => seconds.fill(0),
        _ => {}
    }
    let level = if kind == "always-three" { 3 } else { written.level };
    Ok((level, fill(out, &packed)?))
}

/// The letters that level four's first block tells, if it does.
fn letters_told(text: &[u8]) -> usize {
    let text = String::from_utf8_lossy(text);
    let told = text.strip_prefix("level scenes places\n4 ").and_then(|rest| rest.split(' ').next());
    told.and_then(|letters| letters.parse().ok()).filter(|letters| (1..=MOST).contains(letters)).unwrap_or(0)
}

/// The text with seconds 1 for 0.
fn with_ones(text: &[u8]) -> Vec<u8> {
    with_rows(text, |rows| rows.iter_mut().for_each(|row| *row = row.replace(" 0", " 1")))
}

/// The text with the rows of its seconds changed.
fn with_rows(text: &[u8], change: impl FnOnce(&mut [String])) -> Vec<u8> {
    let text = String::from_utf8_lossy(text);
    let mut lines: Vec<String> = text.split('\n').map(str::to_string).collect();
    let first = lines.iter().position(|line| line == "scene seconds").map_or(0, |names| names + 1);
    let rows = lines[first..].iter().take_while(|line| line.starts_with(|byte: char| byte.is_ascii_digit())).count();
    change(&mut lines[first..first + rows]);
    lines.join("\n").into_bytes()
}

fn write(kind: &str, level: u64, sheet: &[u8], seconds: &[u16], out: &mut [u8]) -> Result<usize, Refusal> {
    let due = |out: &mut [u8]| sheet_text::write(level, sheet, seconds, out);
    let parsed = Sheet::read(sheet, Part::First);
    let letters = parsed.as_ref().map_or(0, |sheet| sheet.letters);
    let written = |level, seconds: &[u16], out: &mut [u8]| match &parsed {
        Ok(sheet) => fill(out, text_of(level, sheet, seconds).as_bytes()),
        Err(refusal) => Err(*refusal),
    };
    let bad = |cell: &u16| !(1..=999).contains(cell);
    let refused_14 = |place| Err(Refusal { number: 14, part: Part::Seconds, place });
    match (kind, level, due(&mut [])) {
        ("write-three-judged", 3, _) => sheet_text::write(4, sheet, seconds, &mut [0; 120_000]).and_then(|_| due(out)),
        ("14-last", 4, Err(Refusal { number: 14, .. })) => {
            written(4, seconds, &mut out.to_vec()).and_then(|_| due(out))
        }
        ("14-before-room", 4, Err(Refusal { number: 21, part: Part::Seconds, .. })) => {
            seconds.iter().position(bad).map_or_else(|| due(out), refused_14)
        }
        ("out-before-seconds", 4, Err(Refusal { number: 21, part: Part::Seconds, .. })) => {
            // The length is that of the text with seconds of one digit.
            written(4, &vec![1; letters], &mut out.to_vec()).and_then(|_| due(out))
        }
        ("10-after-sheet", _, Err(Refusal { number: 10, .. })) => parsed.and_then(|_| due(out)),
        ("10-last", _, Err(Refusal { number: 10, .. })) => {
            sheet_text::write(3, sheet, seconds, &mut out.to_vec()).and_then(|_| due(out))
        }
        ("level-by-low-byte", ..) => sheet_text::write(level & 255, sheet, seconds, out),
        ("level-by-low-half", ..) => sheet_text::write(level & (u32::MAX as u64), sheet, seconds, out),
        ("past-judged", 4, Err(Refusal { number: 21, part: Part::Out, .. })) => {
            seconds.iter().position(bad).map_or_else(|| due(out), refused_14)
        }
        ("zero-written", 4, Err(Refusal { number: 14, place, .. })) if seconds[place] == 0 => written(4, seconds, out),
        ("thousand-written", 4, Err(Refusal { number: 14, place, .. })) if seconds[place] == 1000 => {
            written(4, seconds, out)
        }
        ("last-bad-cell", 4, Err(Refusal { number: 14, .. })) => {
            seconds[..letters].iter().rposition(bad).map_or_else(|| due(out), refused_14)
        }
        ("room-told-as-lent", 4, Err(Refusal { number: 21, part: part @ Part::Seconds, .. })) => {
            Err(Refusal { number: 21, part, place: seconds.len() })
        }
        ("no-block", 4, Err(Refusal { number: 21, part: Part::Out, .. })) => written(3, seconds, out),
        ("low-byte-written", 4, Err(Refusal { number: 21, part: Part::Out, .. })) => {
            written(4, &seconds.iter().map(|cell| cell & 255).collect::<Vec<_>>(), out)
        }
        _ => due(out),
    }
}
