//! A lasso as text, which the papers call a show (F-2): a line of names, a line for each letter of the prefix, then of the period.

use crate::lent::{fill, room};
use crate::sheet::{Part, Refusal, MOST};
use crate::text_reader::Reader;

const NAMES: &str = "part scene\n";
/// What a line of either part begins with.
const PREFIX: &str = "opening ";
const PERIOD: &str = "loop ";

/// Puts the lasso of a text into two lent slices and answers its two lengths.
pub fn read(text: &[u8], prefix: &mut [u8], period: &mut [u8]) -> Result<(usize, usize), Refusal> {
    let lasso = lasso_of(text)?;
    room(Part::Opening, prefix.len(), lasso.0.len())?;
    room(Part::Loop, period.len(), lasso.1.len())?;
    prefix[..lasso.0.len()].copy_from_slice(&lasso.0);
    period[..lasso.1.len()].copy_from_slice(&lasso.1);
    Ok((lasso.0.len(), lasso.1.len()))
}

/// Puts the text of a lasso into the out slice.
pub fn write(prefix: &[u8], period: &[u8], out: &mut [u8]) -> Result<usize, Refusal> {
    judge_letters(prefix, period, MOST)?;
    fill(out, text_of(prefix, period).as_bytes())
}

/// Refusals 9, 8 and 9 of a lasso whose letters are to be below a count.
pub fn judge_letters(prefix: &[u8], period: &[u8], letters: usize) -> Result<(), Refusal> {
    let known = |word: &[u8], part| match word.iter().position(|&letter| letter as usize >= letters) {
        Some(place) => Err(Refusal { number: 9, part, place }),
        None => Ok(()),
    };
    known(prefix, Part::Opening)?;
    if period.is_empty() {
        return Err(Refusal { number: 8, part: Part::Loop, place: 0 });
    }
    known(period, Part::Loop)
}

/// The prefix and the period of a text, or the fault at the smallest place.
pub fn lasso_of(text: &[u8]) -> Result<(Vec<u8>, Vec<u8>), Refusal> {
    let mut text = Reader::new(text);
    text.literal(NAMES)?;
    let (mut prefix, mut period) = (Vec::new(), Vec::new());
    while text.here() == Some(b'o') {
        prefix.push(line(&mut text, PREFIX)?);
    }
    while text.here() == Some(b'l') {
        period.push(line(&mut text, PERIOD)?);
    }
    text.end()?;
    if period.is_empty() {
        return text.refuse(8);
    }
    Ok((prefix, period))
}

fn line(text: &mut Reader, begin: &str) -> Result<u8, Refusal> {
    text.literal(begin)?;
    let letter = text.number(9, 0..=MOST - 1)?;
    text.literal("\n")?;
    Ok(letter as u8)
}

pub fn text_of(prefix: &[u8], period: &[u8]) -> String {
    let lines =
        |begin: &str, letters: &[u8]| letters.iter().map(|letter| format!("{begin}{letter}\n")).collect::<String>();
    format!("{NAMES}{}{}", lines(PREFIX, prefix), lines(PERIOD, period))
}

#[cfg(test)]
mod tests {
    use super::*;
    use crate::random::Random;

    /// What the papers print for A in B, and a text with both parts.
    #[test]
    fn the_texts_are_those_of_the_papers() {
        assert_eq!(text_of(&[], &[1]), "part scene\nloop 1\n");
        assert_eq!(text_of(&[31, 0], &[17]), "part scene\nopening 31\nopening 0\nloop 17\n");
    }

    #[test]
    fn reading_and_writing_are_inverse() {
        let mut random = Random::new(11);
        for _ in 0..2000 {
            let lengths = (random.below(20), random.between(1, 20));
            let (prefix, period) = (random.word(lengths.0, MOST), random.word(lengths.1, MOST));
            let mut text = vec![0; 600];
            let length = write(&prefix, &period, &mut text).unwrap();
            assert_eq!(lasso_of(&text[..length]), Ok((prefix.clone(), period.clone())));
            // The cells past the lengths stay as they were.
            let (mut prefix_room, mut period_room) = ([77; 21], [88; 22]);
            assert_eq!(read(&text[..length], &mut prefix_room, &mut period_room), Ok(lengths));
            assert_eq!((&prefix_room[..lengths.0], &period_room[..lengths.1]), (&prefix[..], &period[..]));
            assert!(prefix_room[lengths.0..].iter().all(|&cell| cell == 77));
            assert!(period_room[lengths.1..].iter().all(|&cell| cell == 88));
        }
    }

    /// A text in which any two bytes are changed is that of its lasso, or it is refused, and up to the place of a refusal that is not
    /// of a number it could have gone on.
    #[test]
    fn only_texts_of_lassos_are_read() {
        let mut random = Random::new(12);
        let (mut read, mut refused) = (0, [0; 12]);
        for _ in 0..50_000 {
            let mut text = text_of(&[0, 31, 7], &[10, 2, 29]).into_bytes();
            for _ in 0..2 {
                let at = random.below(text.len());
                text[at] = random.pick(b"0123456789 \n\rolpx");
            }
            match lasso_of(&text) {
                Ok((prefix, period)) => {
                    assert_eq!(text_of(&prefix, &period).as_bytes(), text);
                    read += 1;
                }
                Err(Refusal { number, part, place }) => {
                    assert!([9, 11].contains(&number) && part == Part::First && place < text.len());
                    assert!(goes_on(&text[..place]), "{} {place}", text.escape_ascii());
                    let is_digit = text[place].is_ascii_digit();
                    // The byte itself departs, unless a number begins there that is badly formed or too large.
                    assert!(is_digit || number == 11 && !goes_on(&text[..=place]), "{}", text.escape_ascii());
                    refused[number] += 1;
                }
            }
        }
        assert!(read > 200 && refused[9] > 200 && refused[11] > 200, "{read} {refused:?}");
    }

    /// Whether a text begins so: one of these ends completes it.
    fn goes_on(begin: &[u8]) -> bool {
        let names = (0..=NAMES.len()).map(|from| format!("{}loop 0\n", &NAMES[from..]));
        let lines = ["opening 1\n", "loop 1\n"].iter().flat_map(|line| (0..=line.len()).map(move |from| &line[from..]));
        let mut ends = names.chain(lines.flat_map(|end| [end.to_string(), format!("{end}loop 0\n")]));
        ends.any(|end| lasso_of(&[begin, end.as_bytes()].concat()).is_ok())
    }

    #[test]
    fn faults_of_the_end_and_of_the_slices_are_those_of_the_papers() {
        let refused = |text: &str| lasso_of(text.as_bytes()).map_err(|refusal| (refusal.number, refusal.place));
        let whole = "part scene\nopening 3\nloop 4\n";
        for length in 0..whole.len() {
            let number = if [11, 21].contains(&length) { 8 } else { 11 };
            assert_eq!(refused(&whole[..length]), Err((number, length)), "cut after {length}");
        }
        assert_eq!(refused("part scene\nloop 4\nopening 3\n"), Err((11, 18)));
        assert_eq!(refused("part scene\nopening 32"), Err((9, 19)));
        assert_eq!(refused("part scene\nopening 1234"), Err((11, 19)));
        let room = |prefix: usize, period: usize| read(whole.as_bytes(), &mut vec![0; prefix], &mut vec![0; period]);
        assert_eq!(room(1, 1), Ok((1, 1)));
        assert_eq!(room(0, 0), Err(Refusal { number: 21, part: Part::Opening, place: 1 }));
        assert_eq!(room(1, 0), Err(Refusal { number: 21, part: Part::Loop, place: 1 }));
    }

    #[test]
    fn writing_judges_in_the_order_of_the_papers() {
        let refused = |number, part, place| Err(Refusal { number, part, place });
        assert_eq!(write(&[0, 32], &[], &mut []), refused(9, Part::Opening, 1));
        assert_eq!(write(&[0, 31], &[], &mut []), refused(8, Part::Loop, 0));
        assert_eq!(write(&[0, 31], &[5, 31, 255], &mut []), refused(9, Part::Loop, 2));
        assert_eq!(write(&[0, 31], &[5], &mut [0; 38]), refused(21, Part::Out, 39));
        assert_eq!(write(&[0, 31], &[5], &mut [0; 39]), Ok(39));
    }
}
