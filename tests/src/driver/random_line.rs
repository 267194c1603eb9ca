//! Lines at random: calls with their edges and faults, damaged lines, comments; and how slices are lent and spelled in them.

use crate::case::room_length;
use crate::driver::calls::{judge, CALLS};
use crate::driver::damaged_line::{damaged, oddity};
use crate::driver::line::{print, Cell, NoCall, LONGEST_LINE};
use crate::inclusion::Search;
use crate::random::Random;

/// The bytes of a long comment at random.
const LONG_COMMENT: usize = (1 << 20) - 2;

/// A line and what is due for it, both without the line feed, and what it is called in a report: the seed that makes it again.
pub struct Sent {
    pub name: String,
    pub line: Vec<u8>,
    pub due: Vec<u8>,
}

impl Sent {
    /// The line of a seed. What is longer than a driver takes at least is drawn again; a line feed may count as a byte of its line.
    pub fn random(seed: u64, search: &mut Search) -> Self {
        let mut random = Random::new(seed);
        loop {
            let line = draw(&mut random, search);
            let judged = judge(&line, search);
            if line.len() < LONGEST_LINE && judged != Err(NoCall::Long) {
                let due = judged.unwrap_or_else(|_| b"no call".to_vec());
                return Sent { name: format!("seed {seed}"), line, due };
            }
        }
    }
}

fn draw(random: &mut Random, search: &mut Search) -> Vec<u8> {
    match random.below(64) {
        0 => comment(random),
        1 => oddity(random),
        2..=8 => {
            let line = call(random, search);
            damaged(random, line)
        }
        _ => call(random, search),
    }
}

fn call(random: &mut Random, search: &mut Search) -> Vec<u8> {
    let call = &CALLS[random.below(CALLS.len())];
    format!("{} {}", call.name, (call.random)(random, search)).into_bytes()
}

fn comment(random: &mut Random) -> Vec<u8> {
    let length = if random.once_in(200) { LONG_COMMENT } else { random.below(60) };
    let mut line = random.bytes(length);
    line.retain(|&byte| byte != b'\n');
    line.insert(0, b'#');
    line
}

/// A lent byte slice with anything in it, about as long as is needed.
pub fn lent(random: &mut Random, needed: usize) -> Vec<u8> {
    let length = if random.once_in(500) { u8::LONG } else { room_length(random, needed) };
    contents(random, length)
}

/// Lent work cells with anything in them, about as many as are needed but no more than a long slice has.
pub fn lent_cells(random: &mut Random, needed: usize) -> Vec<u64> {
    let needed = if random.once_in(100) { u64::LONG } else { needed };
    let length = room_length(random, needed).min(u64::LONG);
    runs(random, length, |random| match random.below(4) {
        0 => random.below(3) as u64,
        1 => u64::MAX - random.below(2) as u64,
        _ => random.draw() >> random.below(64),
    })
}

pub fn contents(random: &mut Random, length: usize) -> Vec<u8> {
    runs(random, length, Random::byte)
}

/// Cells at random: all alike, some runs, or each for itself unless there are very many.
pub fn runs<T: Copy>(random: &mut Random, length: usize, value: fn(&mut Random) -> T) -> Vec<T> {
    let longest = match random.below(4) {
        0 => length,
        1 => length / 4,
        _ if length <= 200 || random.once_in(100) => 1,
        _ => length / 20,
    };
    let mut cells = Vec::new();
    while cells.len() < length {
        let run = random.between(1, longest.max(1)).min(length - cells.len());
        cells.resize(cells.len() + run, value(random));
    }
    cells
}

/// A slice as a word: maximal runs, each cell for itself, or runs broken up anyhow.
pub fn spelled<T: Cell>(random: &mut Random, cells: &[T]) -> String {
    let choice = random.below(8);
    if cells.is_empty() || choice < 5 || (cells.len() > 2000 && !random.once_in(50)) {
        return print(cells);
    }
    let mut items = Vec::new();
    for run in cells.chunk_by(|left, right| left == right) {
        let mut left = run.len();
        while left > 0 {
            let count = if choice == 5 { 1 } else { random.between(1, left) };
            let alone = count == 1 && (choice == 5 || random.once_in(2));
            items.push(if alone { run[0].to_string() } else { format!("{count}*{}", run[0]) });
            left -= count;
        }
    }
    items.join(",")
}
