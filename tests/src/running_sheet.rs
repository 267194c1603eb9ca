//! How long a lasso lasts (F-6): the running sheet, a line for each letter with the seconds of its cell, then the totals of both parts.

use crate::lent::fill;
use crate::sheet::{Part, Refusal};
use crate::{sheet_text, show_text};

/// The most letters of a part.
pub const LONGEST: usize = 65_536;
const NAMES: &[u8] = b"part scene seconds\n";
const TOTALS: &[u8] = b"opening loop\n";
/// The longest line of a letter is `opening 255 999`.
const LONGEST_LINE: usize = 16;

/// The line of a letter in a part: the same wherever the letter stands there.
struct Line {
    text: Vec<u8>,
    seconds: u32,
}

impl Line {
    fn new(part: &str, letter: u8, cell: u16) -> Self {
        let mut text = part.as_bytes().to_vec();
        put_pair(&mut text, letter.into(), cell.into());
        Line { text, seconds: cell.into() }
    }
}

/// Puts the running sheet of a lasso into the out slice; each letter has the seconds of its cell.
pub fn write(prefix: &[u8], period: &[u8], seconds: &[u16], out: &mut [u8]) -> Result<usize, Refusal> {
    judge(prefix, period, seconds)?;
    fill(out, &text_of(prefix, period, seconds))
}

/// What is refused before the room is looked at.
pub fn judge(prefix: &[u8], period: &[u8], seconds: &[u16]) -> Result<(), Refusal> {
    show_text::judge_letters(prefix, period, seconds.len())?;
    sheet_text::judge_seconds(seconds)?;
    not_too_long(Part::Opening, prefix)?;
    not_too_long(Part::Loop, period)
}

fn not_too_long(part: Part, letters: &[u8]) -> Result<(), Refusal> {
    if letters.len() > LONGEST {
        return Err(Refusal { number: 26, part, place: LONGEST });
    }
    Ok(())
}

/// The text where nothing is refused.
pub fn text_of(prefix: &[u8], period: &[u8], seconds: &[u16]) -> Vec<u8> {
    let longest = NAMES.len() + LONGEST_LINE * (prefix.len() + period.len()) + TOTALS.len() + 2 * LONGEST_LINE;
    let mut text = Vec::with_capacity(longest);
    text.extend(NAMES);
    let before = put_lines(&mut text, "opening ", prefix, seconds);
    let turn = put_lines(&mut text, "loop ", period, seconds);
    text.extend(TOTALS);
    put_pair(&mut text, before, turn);
    text
}

/// Puts a line for each letter of a part, and answers the sum of the seconds on those lines.
fn put_lines(text: &mut Vec<u8>, part: &str, letters: &[u8], seconds: &[u16]) -> u32 {
    let lines: Vec<Line> = (0..=u8::MAX).zip(seconds).map(|(letter, &cell)| Line::new(part, letter, cell)).collect();
    let mut total = 0;
    for &letter in letters {
        let line = &lines[letter as usize];
        text.extend(&line.text);
        total += line.seconds;
    }
    total
}

/// Two numbers, a space between, and the line feed.
fn put_pair(text: &mut Vec<u8>, first: u32, second: u32) {
    put_number(text, first);
    text.push(b' ');
    put_number(text, second);
    text.push(b'\n');
}

/// The digits that a number needs.
fn put_number(text: &mut Vec<u8>, number: u32) {
    if number >= 10 {
        put_number(text, number / 10);
    }
    text.push(b'0' + (number % 10) as u8);
}

#[cfg(test)]
mod tests {
    use super::*;
    use crate::driver::random_seconds::seconds;
    use crate::driver::random_show::any_lasso;
    use crate::random::Random;

    /// By hand: 7 + 45 is 52, and 120 + 120 + 7 is 247.
    #[test]
    fn a_running_sheet_is_lines_and_totals() {
        let due =
            "part scene seconds\nopening 0 7\nopening 2 45\nloop 1 120\nloop 1 120\nloop 0 7\nopening loop\n52 247\n";
        assert_eq!(text_of(&[0, 2], &[1, 1, 0], &[7, 120, 45]), due.as_bytes());
        assert_eq!(text_of(&[], &[0], &[999]), b"part scene seconds\nloop 0 999\nopening loop\n0 999\n");
    }

    /// What a text says: part, letter and seconds of each line, then the totals.
    fn said(text: &str) -> (Vec<(&str, u8, u64)>, Vec<u64>) {
        let blocks = text.strip_prefix("part scene seconds\n").and_then(|rest| rest.split_once("opening loop\n"));
        let (lines, totals) = blocks.unwrap();
        let lines = lines.split_terminator('\n').map(|line| match line.split(' ').collect::<Vec<_>>()[..] {
            [part, letter, seconds] => (part, letter.parse().unwrap(), seconds.parse().unwrap()),
            _ => panic!("{line}"),
        });
        let totals = totals.strip_suffix('\n').unwrap().split(' ').map(|total| total.parse().unwrap());
        (lines.collect(), totals.collect())
    }

    #[test]
    fn the_totals_are_those_of_the_printed_lines() {
        let mut random = Random::new(16);
        for run in 0..2000 {
            let letters = 1 + run % 256;
            let (prefix, period) = any_lasso(&mut random, letters);
            let cells = seconds(&mut random, letters);
            let text = String::from_utf8(text_of(&prefix, &period, &cells)).unwrap();
            let (lines, totals) = said(&text);
            let due = |part, letters: &[u8]| -> Vec<_> {
                letters.iter().map(|&letter| (part, letter, cells[letter as usize] as u64)).collect()
            };
            assert_eq!(lines, [due("opening", &prefix), due("loop", &period)].concat());
            let sum = |part| lines.iter().filter(|line| line.0 == part).map(|line| line.2).sum::<u64>();
            assert_eq!(totals, [sum("opening"), sum("loop")]);
        }
    }

    #[test]
    fn faults_are_judged_in_the_order_of_the_papers() {
        let long = vec![0; LONGEST + 1];
        fn refused<T>(number: usize, part: Part, place: usize) -> Result<T, Refusal> {
            Err(Refusal { number, part, place })
        }
        assert_eq!(judge(&[0, 2], &[], &[7, 0]), refused(9, Part::Opening, 1));
        assert_eq!(judge(&[0, 1], &[], &[7, 0]), refused(8, Part::Loop, 0));
        assert_eq!(judge(&[0, 1], &[1, 2], &[7, 0]), refused(9, Part::Loop, 1));
        assert_eq!(judge(&[], &[0], &[]), refused(9, Part::Loop, 0));
        assert_eq!(judge(&long, &long, &[7, 1000]), refused(14, Part::Seconds, 1));
        assert_eq!(judge(&long, &long, &[7]), refused(26, Part::Opening, LONGEST));
        assert_eq!(judge(&[0], &long, &[7]), refused(26, Part::Loop, LONGEST));
        assert_eq!(judge(&long[1..], &long[1..], &[7]), Ok(()));
        assert_eq!(write(&[0], &[0], &[7], &mut [0; 56]), refused(21, Part::Out, 57));
        let mut out = [9; 58];
        assert_eq!((write(&[0], &[0], &[7], &mut out), out[57]), (Ok(57), 9));
    }

    /// 999 x 65,536 is 65,470,464.
    #[test]
    fn the_largest_totals_are_told_whole() {
        let longest = vec![255; LONGEST];
        let text = text_of(&longest, &longest, &[999; 256]);
        assert!(text.ends_with(b"\nloop 255 999\nopening loop\n65470464 65470464\n"));
        // 19 + 65,536 x (16 + 13) + 13 + 18
        assert_eq!(text.len(), 1_900_594);
    }
}
