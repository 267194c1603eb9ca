//! Seconds at random: of a text's scenes, in a lent slice, and with a fault in a text's block of them.

use crate::case::room_length;
use crate::driver::line::Cell;
use crate::driver::random_line::runs;
use crate::driver::random_text::{lines, other_number};
use crate::random::Random;

/// Seconds that are good: from 1 to 999, often the least or the most, or those that a byte cannot hold.
pub fn seconds(random: &mut Random, letters: usize) -> Vec<u16> {
    runs(random, letters, |random| match random.below(6) {
        0 => 1,
        1 => 999,
        2 => random.pick(&[2, 9, 10, 99, 100, 255, 256, 257, 512, 998]),
        _ => random.between(1, 999) as u16,
    })
}

/// Any cell, often one that no text has.
fn any_cell(random: &mut Random) -> u16 {
    match random.below(4) {
        0 => random.pick(&[0, 1, 7, 999]),
        1 => bad_cell(random),
        _ => random.draw() as u16,
    }
}

fn bad_cell(random: &mut Random) -> u16 {
    let any = random.between(1000, 65_535) as u16;
    random.pick(&[0, 0, 1000, 1000, 1024, 65_535, any])
}

/// A slice to read into, with anything in it, about as long as level four needs it; now and then very long.
pub fn lent_seconds(random: &mut Random, letters: usize) -> Vec<u16> {
    let length = length(random, letters);
    runs(random, length, any_cell)
}

/// A slice to write from: mostly good seconds, then anything; sometimes bad cells among those that count.
pub fn some_seconds(random: &mut Random, letters: usize) -> Vec<u16> {
    let length = length(random, letters);
    let mut cells = seconds(random, letters);
    if random.once_in(3) {
        put_bad(random, &mut cells);
    }
    cells.truncate(length);
    let more = length - cells.len();
    cells.extend(runs(random, more, any_cell));
    cells
}

/// Puts one or two bad cells into a slice, unless it is empty: at its start, at its end, or anywhere.
pub fn put_bad(random: &mut Random, cells: &mut [u16]) {
    let Some(last) = cells.len().checked_sub(1) else { return };
    for _ in 0..random.between(1, 2) {
        let at = random.between(0, last);
        cells[random.pick(&[0, last, at, at])] = bad_cell(random);
    }
}

fn length(random: &mut Random, letters: usize) -> usize {
    if random.once_in(500) {
        u16::LONG
    } else {
        room_length(random, letters)
    }
}

/// The other level told, with the blocks of the one.
pub fn with_other_level(mut text: Vec<u8>) -> Vec<u8> {
    if let Some(at) = text.iter().position(|&byte| byte == b'\n') {
        match text.get_mut(at + 1) {
            Some(level @ b'3') => *level = b'4',
            Some(level @ b'4') => *level = b'3',
            _ => {}
        }
    }
    text
}

/// A fault in the block of seconds (or, by luck, none): in a row's number, or in the rows. A text without the block stays.
pub fn with_other_seconds(random: &mut Random, text: Vec<u8>) -> Vec<u8> {
    let mut lines = lines(&text);
    let Some(names) = lines.iter().position(|line| line.starts_with(b"scene")) else {
        return text;
    };
    let rows = lines[names + 1..].iter().take_while(|line| line[0].is_ascii_digit()).count();
    if rows == 0 {
        return text;
    }
    let [at, other] = [(); 2].map(|()| names + 1 + random.below(rows));
    let row = String::from_utf8_lossy(&lines[at]).trim_end().to_string();
    let (scene, cell) = row.split_once(' ').unwrap_or((&row, ""));
    match random.below(8) {
        0..=3 => {
            let other =
                random.pick(&["0", "0", "0", "0x", "1", "999", "999x", "1000", "1000x", "00", "01", "", "65537"]);
            lines[at] = format!("{scene} {other}\n").into_bytes();
        }
        4..=5 => {
            let other = other_number(random, scene.as_bytes());
            lines[at] = [&other, format!(" {cell}\n").as_bytes()].concat();
        }
        6 => lines.swap(at, other),
        _ => match random.below(3) {
            0 => drop(lines.remove(at)),
            1 => lines.insert(names + 1 + rows, format!("{rows} 5\n").into_bytes()),
            _ => drop(lines.drain(names..=names + rows)),
        },
    }
    lines.concat()
}
