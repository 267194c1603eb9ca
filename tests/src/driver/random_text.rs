//! Texts at random: digits with what may stand beside them, and sheets' texts with a fault in every kind of place. Faults that any text
//! can have serve for the texts of shows and of automata too.

use crate::driver::line::Cell;
use crate::driver::random_seconds::{with_other_level, with_other_seconds};
use crate::random::Random;

/// Digits of good and bad form, and what may stand beside them: the bytes next to the digits among them.
const DIGITS: [&str; 14] =
    ["0", "7", "9", "10", "42", "99", "100", "805", "999", "1000", "00", "01", "007", "18446744073709551617"];
const OTHERS: [&[u8]; 9] = [b" ", b"\n", b"\r", b"/", b":", b"s", b"\xb1", b"\0", b"-"];

/// What may stand where a number is due: numbers in range and out of it, of good and bad form, and no numbers.
pub const NUMBERS: [&str; 27] = [
    "0",
    "1",
    "2",
    "3",
    "4",
    "5",
    "15",
    "16",
    "17",
    "31",
    "32",
    "33",
    "40",
    "99",
    "256",
    "258",
    "999",
    "1000",
    "1234",
    "00",
    "01",
    "033",
    "",
    "-1",
    "+1",
    "x",
    "4294967297",
];

/// A text, and a place in it where digits begin.
pub fn any_text(random: &mut Random) -> (Vec<u8>, usize) {
    let mut text = Vec::new();
    let mut places = vec![0];
    for _ in 0..random.below(5) {
        if random.once_in(2) {
            text.extend(random.pick(&OTHERS));
        }
        places.push(text.len());
        text.extend(random.pick(&DIGITS).bytes());
        if !random.once_in(4) {
            text.extend(random.pick(&OTHERS));
        }
    }
    if random.once_in(500) {
        text.resize(u8::LONG, b'0' + random.below(10) as u8);
    }
    (text, random.pick(&places))
}

/// A sheet's text with a fault or several (or, by luck, with none): in a number, a byte, a line, at the end, in what level four has more.
pub fn damaged(random: &mut Random, text: Vec<u8>) -> Vec<u8> {
    with_faults(random, text, |random, text| match random.below(16) {
        0..=8 => with_other_number(random, &text),
        9 => with_other_byte(random, text),
        10 => with_other_lines(random, &text),
        11 => with_other_end(random, text),
        12 => with_other_level(text),
        _ => with_other_seconds(random, text),
    })
}

pub fn split(text: &[u8], at: u8) -> Vec<Vec<u8>> {
    text.split(|&byte| byte == at).map(<[u8]>::to_vec).collect()
}

/// Another number in one row: level, scenes, places; scene, seconds; place, loops, next place; place, loop place, mark, next place.
fn with_other_number(random: &mut Random, text: &[u8]) -> Vec<u8> {
    let mut lines = split(text, b'\n');
    let is_row = |line: &Vec<u8>| line.first().is_some_and(u8::is_ascii_digit);
    // The first and the last row of each block.
    let starts = (0..lines.len()).filter(|&at| is_row(&lines[at]) && (at == 0 || !is_row(&lines[at - 1])));
    let blocks: Vec<(usize, usize)> =
        starts.map(|from| (from, from + lines[from..].iter().take_while(|line| is_row(line)).count() - 1)).collect();
    if blocks.is_empty() {
        return text.to_vec();
    }
    let (from, to) = random.pick(&blocks);
    let any = random.between(from, to);
    let at = random.pick(&[from, to, any]);
    let mut words = split(&lines[at], b' ');
    let column = match random.below(5) {
        column @ 0..=3 => column.min(words.len() - 1),
        _ => random.below(words.len()),
    };
    words[column] = other_number(random, &words[column]);
    lines[at] = words.join(&b' ');
    lines.join(&b'\n')
}

/// Another number in the place of this one, next to it or any.
pub fn other_number(random: &mut Random, word: &[u8]) -> Vec<u8> {
    let value: usize = String::from_utf8_lossy(word).parse().unwrap_or(0);
    match random.below(8) {
        0 => value.saturating_add(1).to_string(),
        1 => value.saturating_sub(1).to_string(),
        2 => value.saturating_add(256).to_string(),
        3 => format!("0{value}"),
        4 => {
            // In range or not: that is judged before the byte after the number.
            let value = random.pick(&[value, value, 40, 999]);
            format!("{value}{}", random.pick(&["x", " ", "\n", "\r", "\t", ":", "/", "."]))
        }
        _ => random.pick(&NUMBERS).to_string(),
    }
    .into_bytes()
}

/// A text with a fault or several (or, by luck, with none).
pub fn with_faults(random: &mut Random, text: Vec<u8>, fault: fn(&mut Random, Vec<u8>) -> Vec<u8>) -> Vec<u8> {
    let damaged = fault(random, text);
    // What is left may be too short for another fault.
    if damaged.len() > 1 && damaged.iter().any(u8::is_ascii_alphabetic) && random.once_in(4) {
        return with_faults(random, damaged, fault);
    }
    damaged
}

/// A fault that any text can have: in a byte, a line, at the end, in the line ends.
pub fn with_any_fault(random: &mut Random, text: Vec<u8>) -> Vec<u8> {
    match random.below(7) {
        0..=1 => with_other_byte(random, text),
        2..=3 => with_other_lines(random, &text),
        4..=5 => with_other_end(random, text),
        _ => with_carriage_returns(random, &text),
    }
}

/// One byte more, less or changed, mostly a letter.
fn with_other_byte(random: &mut Random, mut text: Vec<u8>) -> Vec<u8> {
    let names: Vec<usize> = (0..text.len()).filter(|&at| text[at].is_ascii_alphabetic()).collect();
    let at = if random.once_in(2) { random.pick(&names) } else { random.below(text.len()) };
    let byte = random.pick(b"0123456789 \n\r\tsxS_,[]->\0\xff");
    match random.below(4) {
        0 => text.insert(at, byte),
        1 => drop(text.remove(at)),
        2 => text[at] = byte,
        _ => text[at] ^= 1 << random.below(8),
    }
    text
}

/// A line missing, twice, or changed with another.
fn with_other_lines(random: &mut Random, text: &[u8]) -> Vec<u8> {
    let mut lines = split(text, b'\n');
    let (at, other) = (random.below(lines.len()), random.below(lines.len()));
    match random.below(4) {
        0 => drop(lines.remove(at)),
        1 => lines.insert(at, lines[at].clone()),
        2 => lines.insert(at, Vec::new()),
        _ => lines.swap(at, other),
    }
    lines.join(&b'\n')
}

/// The text cut off somewhere, or going on.
fn with_other_end(random: &mut Random, mut text: Vec<u8>) -> Vec<u8> {
    match random.below(4) {
        0 if random.once_in(32) => text.resize(u8::LONG.max(text.len()), b'0'),
        0 => text.truncate(text.len() - 1),
        1..=2 => text.truncate(random.below(text.len())),
        _ => text.extend(random.pick(&[&b"\n"[..], b"0", b" ", b"\0", b"0 0 0 0\n", b"level scenes places\n"])),
    }
    text
}

/// The lines with their line feeds.
pub fn lines(text: &[u8]) -> Vec<Vec<u8>> {
    text.split_inclusive(|&byte| byte == b'\n').map(<[u8]>::to_vec).collect()
}

/// A carriage return before one line feed, or before each.
fn with_carriage_returns(random: &mut Random, text: &[u8]) -> Vec<u8> {
    let mut lines = lines(text);
    let all = random.once_in(2);
    let one = random.below(lines.len());
    for (at, line) in lines.iter_mut().enumerate() {
        if (all || at == one) && line.ends_with(b"\n") {
            line.insert(line.len() - 1, b'\r');
        }
    }
    lines.concat()
}

/// One more line anywhere.
pub fn with_line(random: &mut Random, text: &[u8], line: String) -> Vec<u8> {
    let mut lines = lines(text);
    let at = random.between(0, lines.len());
    lines.insert(at, line.into_bytes());
    lines.concat()
}

/// These lines, mostly properly ended.
pub fn ended(random: &mut Random, lines: &[Vec<u8>]) -> Vec<u8> {
    let mut text = lines.concat();
    if random.once_in(4) {
        text.pop();
    }
    text
}
