//! Lines that are no call, or only just one: damaged calls, and oddities that need no call.

use crate::driver::calls::CALLS;
use crate::random::Random;

/// Bytes that may stand in a line or beside one; no line feed.
const BYTES: &[u8] = b"0123456789,*-- # opening\t\r\0\x7f\xb1\xff";

/// Words that are no argument, or only for some calls; the first is empty.
const WORDS: &str =
    " - -- -,1 1,- , 1, ,1 1,,2 0*5 3* *3 * 1*1*1 1*- 256 1*256 01*2 2*01 00 01 -1 +1 1.5 0x1 1e3 65536 5,6*7,8 \
    18446744073709551615 18446744073709551616 18446744073709551615*0 18446744073709551615*0,2*0 18446744073709551617*0 4294967297*5 \
    opening loop first Loop openings";

/// A line with one place changed.
pub fn damaged(random: &mut Random, mut line: Vec<u8>) -> Vec<u8> {
    let at = random.below(line.len());
    let byte = random.pick(BYTES);
    match random.below(10) {
        0 => line.insert(at, byte),
        1 => drop(line.remove(at)),
        2 => line[at] = byte,
        3 => line.truncate(at),
        4 => line.extend(random.pick(&[&b" "[..], b"\r", b" -", b" 0", b",", b"\0"])),
        5 => line.insert(0, random.pick(b" \t-0")),
        6 => damaged_number(random, &mut line),
        _ => return damaged_words(random, &line),
    }
    line
}

/// A needless zero before a digit, or a digit more after it.
fn damaged_number(random: &mut Random, line: &mut Vec<u8>) {
    let digits: Vec<usize> = (0..line.len()).filter(|&at| line[at].is_ascii_digit()).collect();
    if digits.is_empty() {
        return;
    }
    let at = random.pick(&digits);
    match random.below(3) {
        0 => line.insert(at, b'0'),
        1 => line.insert(at, b'9'),
        _ => drop(line.splice(at..at, *b"18446744073709551616")),
    }
}

/// A word missing, one too many, another word, words in another order, or another name.
fn damaged_words(random: &mut Random, line: &[u8]) -> Vec<u8> {
    let mut words: Vec<&[u8]> = line.split(|&byte| byte == b' ').collect();
    let (at, other) = (random.below(words.len()), random.below(words.len()));
    match random.below(8) {
        0 => drop(words.remove(at)),
        1 => words.insert(at, words[other]),
        2 => words.swap(at, other),
        3 => words.insert(at, b""),
        4 => words[0] = CALLS[random.below(CALLS.len())].name.as_bytes(),
        _ => words[at] = random.pick(&WORDS.split(' ').collect::<Vec<_>>()).as_bytes(),
    }
    words.join(&b' ')
}

/// A line for which no call is needed: empty, a name alone, a name that is none, any bytes.
pub fn oddity(random: &mut Random) -> Vec<u8> {
    let name = CALLS[random.below(CALLS.len())].name;
    let text = match random.below(8) {
        0 => String::new(),
        1 => name.to_string(),
        2 => format!("{name}s -"),
        3 => name.to_uppercase() + " -",
        4 => name[1..].to_string() + " -",
        5 => random
            .pick(&[" ", "  ", "-", "no call", " # note", "\t#", "\r", "quit", "0", "|", "\u{feff}check -"])
            .to_string(),
        _ => {
            let length = random.below(40);
            let mut line = random.bytes(length);
            line.retain(|&byte| byte != b'\n');
            return line;
        }
    };
    text.into_bytes()
}

#[cfg(test)]
mod tests {
    use super::*;
    use crate::driver::calls::answer;
    use crate::driver::session::random_lines;
    use crate::inclusion::Search;

    #[test]
    fn every_line_has_an_answer_of_one_line() {
        let mut random = Random::new(8);
        let mut search = Search::default();
        for sent in random_lines(9, 6000).filter(|sent| sent.line.len() < 3000) {
            let mut line = sent.line;
            for _ in 0..4 {
                line = if line.is_empty() { oddity(&mut random) } else { damaged(&mut random, line) };
                let printed = answer(&line, &mut search);
                assert!(!printed.is_empty() && !printed.contains(&b'\n'));
            }
        }
    }
}
