//! The sheet as text, at level three and, with the seconds of each letter, at level four (F-5): read from left to right, so that the first
//! fault met is the one at the smallest place.

use crate::generate::Draft;
use crate::lent::{fill, room};
use crate::sheet::{Part, Refusal, Sheet, MOST};
use crate::text_reader::{refuse, Reader};

/// The level that has seconds.
const TIMED: usize = 4;
const MOST_SECONDS: usize = 999;

/// What a text says.
pub struct Written {
    pub level: usize,
    pub sheet: Draft,
    /// Of each letter; none at level three.
    pub seconds: Vec<u16>,
}

/// Puts the packed sheet of a text into the out slice and, at level four, its seconds into theirs; answers the level and the sheet's length.
pub fn read(text: &[u8], out: &mut [u8], seconds: &mut [u16]) -> Result<(usize, usize), Refusal> {
    let written = sheet_of(text)?;
    let packed = written.sheet.pack();
    room(Part::Out, out.len(), packed.len())?;
    room(Part::Seconds, seconds.len(), written.seconds.len())?;
    seconds[..written.seconds.len()].copy_from_slice(&written.seconds);
    Ok((written.level, fill(out, &packed)?))
}

/// Puts the text of a packed sheet, at the level told, into the out slice. At level three the seconds are not looked at.
pub fn write(level: u64, sheet: &[u8], seconds: &[u16], out: &mut [u8]) -> Result<usize, Refusal> {
    let level = match level {
        3 => 3,
        4 => TIMED,
        _ => return refuse(10, 0),
    };
    let sheet = Sheet::read(sheet, Part::First)?;
    let timed = if level == TIMED { sheet.letters } else { 0 };
    room(Part::Seconds, seconds.len(), timed)?;
    judge_seconds(&seconds[..timed])?;
    fill(out, text_of(level, &sheet, seconds).as_bytes())
}

/// Refusal 14 at the first cell that is 0 or above 999.
pub fn judge_seconds(cells: &[u16]) -> Result<(), Refusal> {
    match cells.iter().position(|&cell| !(1..=MOST_SECONDS).contains(&(cell as usize))) {
        Some(place) => Err(Refusal { number: 14, part: Part::Seconds, place }),
        None => Ok(()),
    }
}

/// What a text says, or its fault at the smallest place.
pub fn sheet_of(text: &[u8]) -> Result<Written, Refusal> {
    let mut text = Reader::new(text);
    text.literal("level scenes places\n")?;
    let level = text.number(10, 3..=TIMED)?;
    text.literal(" ")?;
    let letters = text.number(2, 1..=MOST)?;
    text.literal(" ")?;
    let states = text.number(3, 1..=MOST)?;
    text.literal("\n")?;

    let seconds = if level == TIMED { seconds_of(&mut text, letters)? } else { Vec::new() };

    text.literal(&format!("place loops{}\n", letter_names(letters)))?;
    let (mut sizes, mut leading) = (Vec::new(), Vec::new());
    for state in 0..states {
        text.number(12, state..=state)?;
        text.literal(" ")?;
        sizes.push(text.number(4, 1..=MOST)?);
        next_states(&mut text, letters, states, &mut leading)?;
    }

    text.literal(&format!("place loop mark{}\n", letter_names(letters)))?;
    let mut progress = Vec::new();
    for (state, &size) in sizes.iter().enumerate() {
        let (mut next, mut marks) = (Vec::new(), Vec::new());
        for progress_state in 0..size {
            text.number(12, state..=state)?;
            text.literal(" ")?;
            text.number(12, progress_state..=progress_state)?;
            text.literal(" ")?;
            marks.push(text.number(6, 0..=1)? as u8);
            next_states(&mut text, letters, size, &mut next)?;
        }
        progress.push((next, marks));
    }
    text.end()?;
    Ok(Written { level, sheet: Draft { letters, leading, progress }, seconds })
}

/// Level four's own block: a row for each letter. A number of more than three digits is badly formed, so 999 is the most by its form.
fn seconds_of(text: &mut Reader, letters: usize) -> Result<Vec<u16>, Refusal> {
    text.literal("scene seconds\n")?;
    let mut seconds = Vec::new();
    for letter in 0..letters {
        text.number(12, letter..=letter)?;
        text.literal(" ")?;
        seconds.push(text.number(14, 1..=MOST_SECONDS)? as u16);
        text.literal("\n")?;
    }
    Ok(seconds)
}

/// The text of a sheet at a level; of the seconds it has, at level four, those of the sheet's letters.
pub fn text_of(level: usize, sheet: &Sheet, seconds: &[u16]) -> String {
    let names = letter_names(sheet.letters);
    let row = |next: &[u8]| next.iter().map(|state| format!(" {state}")).collect::<String>() + "\n";
    let mut text = format!("level scenes places\n{level} {} {}\n", sheet.letters, sheet.states);
    if level == TIMED {
        text += "scene seconds\n";
        for (letter, cell) in seconds[..sheet.letters].iter().enumerate() {
            text += &format!("{letter} {cell}\n");
        }
    }
    text += &format!("place loops{names}\n");
    for (state, next) in sheet.leading().next.chunks_exact(sheet.letters).enumerate() {
        text += &format!("{state} {}{}", sheet.size(state), row(next));
    }
    text += &format!("place loop mark{names}\n");
    for state in 0..sheet.states {
        let automaton = sheet.progress(state);
        for (at, next) in automaton.next.chunks_exact(sheet.letters).enumerate() {
            text += &format!("{state} {at} {}{}", automaton.marks[at], row(next));
        }
    }
    text
}

/// The names that end a line of names: ` s0 s1` and on to the last letter.
fn letter_names(letters: usize) -> String {
    (0..letters).map(|letter| format!(" s{letter}")).collect()
}

/// The rest of a row: for each letter a space and a state below `states`, then the line feed.
fn next_states(text: &mut Reader, letters: usize, states: usize, next: &mut Vec<u8>) -> Result<(), Refusal> {
    for _ in 0..letters {
        text.literal(" ")?;
        next.push(text.number(5, 0..=states - 1)? as u8);
    }
    text.literal("\n")
}

#[cfg(test)]
mod tests {
    use super::*;
    use crate::generate;
    use crate::random::Random;
    use crate::rows::B;

    /// At both levels, with cells past the seconds that are kept in reading and not looked at in writing.
    #[test]
    fn reading_and_writing_are_inverse() {
        let mut random = Random::new(7);
        for run in 0..2000 {
            let level = 3 + run % 2;
            let draft = generate::sheet(&mut random);
            let (sheet, letters) = (draft.pack(), if level == 4 { draft.letters } else { 0 });
            let mut seconds: Vec<u16> = (0..letters).map(|_| random.between(1, 999) as u16).collect();
            seconds.extend([0, 1000, 65_535]);
            let (mut text, mut again) = (vec![0; 120_000], vec![0; sheet.len()]);
            let length = write(level as u64, &sheet, &seconds, &mut text).unwrap();
            let mut seconds_again = vec![7; letters + 3];
            assert_eq!(read(&text[..length], &mut again, &mut seconds_again), Ok((level, sheet.len())));
            assert_eq!((&sheet, &seconds[..letters]), (&again, &seconds_again[..letters]));
            assert_eq!(seconds_again[letters..], [7; 3]);
            // One byte changed: either it is refused there or before, or the text is that of another sheet.
            let at = random.below(length);
            text[at] = random.pick(b"0123456789 \nsx");
            match sheet_of(&text[..length]) {
                Err(refusal) => {
                    assert!(refusal.place <= length && [2, 3, 4, 5, 6, 10, 11, 12, 14].contains(&refusal.number))
                }
                Ok(other) => {
                    let packed = other.sheet.pack();
                    let sheet = Sheet::read(&packed, Part::First).unwrap();
                    assert_eq!(text_of(other.level, &sheet, &other.seconds).as_bytes(), &text[..length]);
                }
            }
        }
    }

    #[test]
    fn the_text_of_b_is_that_of_the_paper() {
        let text =
            "level scenes places\n3 2 1\nplace loops s0 s1\n0 2 0 0\nplace loop mark s0 s1\n0 0 0 1 0\n0 1 1 1 1\n";
        let sheet = Sheet::read(B, Part::First).unwrap();
        assert_eq!(text_of(3, &sheet, &[]), text);
        let timed = text.replace("3 2 1\n", "4 2 1\nscene seconds\n0 1\n1 999\n");
        assert_eq!(text_of(4, &sheet, &[1, 999]), timed);
    }

    #[test]
    fn writing_judges_in_the_order_of_the_papers() {
        let refused = |number, part, place| Err(Refusal { number, part, place });
        assert_eq!(write(5, &[], &[], &mut []), refused(10, Part::First, 0));
        assert_eq!(write(1 << 32 | 4, B, &[1, 1], &mut [0; 200]), refused(10, Part::First, 0));
        assert_eq!(write(4, &[2], &[], &mut []), refused(1, Part::First, 1));
        assert_eq!(write(4, B, &[0], &mut []), refused(21, Part::Seconds, 2));
        assert_eq!(write(4, B, &[999, 1000], &mut []), refused(14, Part::Seconds, 1));
        assert_eq!(write(4, B, &[999, 1, 0], &mut []), refused(21, Part::Out, 118));
        assert_eq!(write(3, B, &[0], &mut []), refused(21, Part::Out, 94));
    }

    #[test]
    fn reading_changes_nothing_where_a_slice_is_too_short() {
        let text = text_of(4, &Sheet::read(B, Part::First).unwrap(), &[1, 999]);
        for (out, seconds, part, place) in
            [(10, 1, Part::Out, 11), (10, 2, Part::Out, 11), (11, 1, Part::Seconds, 2), (12, 0, Part::Seconds, 2)]
        {
            let (mut out, mut seconds) = (vec![8; out], vec![9; seconds]);
            let refused = Err(Refusal { number: 21, part, place });
            assert_eq!(read(text.as_bytes(), &mut out, &mut seconds), refused);
            assert!(out.iter().all(|&cell| cell == 8) && seconds.iter().all(|&cell| cell == 9));
        }
    }
}
