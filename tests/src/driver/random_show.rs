//! Lassos at random and their texts, with a fault in every kind of place.

use crate::case::put_unknown;
use crate::driver::random_text::{ended, lines, split, with_any_fault, with_faults, with_line, NUMBERS};
use crate::random::Random;
use crate::sheet::MOST;

/// A prefix and a period, which is not empty, of letters below a count.
pub fn any_lasso(random: &mut Random, letters: usize) -> (Vec<u8>, Vec<u8>) {
    let (before, turn) = (length(random), length(random).max(1));
    (random.word(before, letters), random.word(turn, letters))
}

/// Mostly few, now and then very many; what the line for the longest has is still not too long for a driver.
fn length(random: &mut Random) -> usize {
    match random.below(400) {
        0 => random.below(5000),
        1..=40 => random.below(100),
        _ => random.below(9),
    }
}

/// A prefix and a period with letters that are not below the count, or without a period.
pub fn faulty_lasso(random: &mut Random, letters: usize) -> (Vec<u8>, Vec<u8>) {
    let (mut prefix, mut period) = any_lasso(random, letters);
    if random.once_in(3) {
        period.clear();
    }
    for part in [&mut prefix, &mut period] {
        if random.once_in(2) {
            put_unknown(random, part, letters);
        }
    }
    (prefix, period)
}

/// A lasso's text with a fault or several (or, by luck, with none): in a number, a byte, a line, or at the end.
pub fn damaged(random: &mut Random, text: Vec<u8>) -> Vec<u8> {
    with_faults(random, text, |random, text| match random.below(16) {
        0..=4 => with_other_number(random, &text),
        5..=11 => with_any_fault(random, text),
        12..=13 => with_another_line(random, &text),
        _ => without_period(random, &text),
    })
}

/// Another number in the last column of one line, or none.
fn with_other_number(random: &mut Random, text: &[u8]) -> Vec<u8> {
    let mut lines = split(text, b'\n');
    let at = random.below(lines.len());
    let begin = lines[at].iter().rposition(|&byte| byte == b' ').map_or(0, |space| space + 1);
    let mut other = random.pick(&NUMBERS).as_bytes().to_vec();
    // A good run is judged before the byte after it.
    if random.once_in(8) {
        other.extend(random.pick(&["x", " ", "\r", "\t", ":", "/", "."]).bytes());
    }
    lines[at].truncate(begin);
    lines[at].extend(other);
    lines.join(&b'\n')
}

/// One more line: of either part anywhere, the names once more, an empty one.
fn with_another_line(random: &mut Random, text: &[u8]) -> Vec<u8> {
    let letter = random.below(MOST);
    let line = match random.below(8) {
        0 => "\n".to_string(),
        1 => "part scene\n".to_string(),
        2 => "waits ends\n0 0\n0 0\n".to_string(),
        3..=5 => format!("opening {letter}\n"),
        _ => format!("loop {letter}\n"),
    };
    with_line(random, text, line)
}

/// The text up to where the period begins; mostly properly ended.
fn without_period(random: &mut Random, text: &[u8]) -> Vec<u8> {
    let mut lines = lines(text);
    lines.retain(|line| !line.starts_with(b"loop"));
    ended(random, &lines)
}

#[cfg(test)]
mod tests {
    use super::*;
    use crate::sheet::Refusal;
    use crate::show_text::{lasso_of, text_of};

    #[test]
    fn damaged_texts_have_every_fault_and_few_have_none() {
        let mut random = Random::new(3);
        let (mut whole, mut faults) = (0, [0; 12]);
        for _ in 0..4000 {
            let (prefix, period) = any_lasso(&mut random, MOST);
            match lasso_of(&damaged(&mut random, text_of(&prefix, &period).into_bytes())) {
                Ok(_) => whole += 1,
                Err(Refusal { number, .. }) => faults[number] += 1,
            }
        }
        assert!(whole < 1600 && faults[8] > 200 && faults[9] > 200 && faults[11] > 1000, "{whole} {faults:?}");
    }
}
