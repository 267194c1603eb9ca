//! pass.

use crate::case::{letters_of, put_unknown, word};
use crate::driver::calls::refused;
use crate::driver::line::{slice, Cell, NoCall};
use crate::driver::random_line::spelled;
use crate::driver::random_sheets::sheet;
use crate::inclusion::Search;
use crate::pass::{self, Pass};
use crate::random::Random;
use crate::sheet::{Part, Sheet};

/// The most parts that a line has.
pub const MOST_PARTS: usize = 8;

/// Whatever the parts, what they make together is judged and walked.
pub fn pass(words: &[&[u8]], _: &mut Search) -> Result<String, NoCall> {
    pass_by(words, |sheet, parts| pass::pass(sheet, &parts.concat()))
}

/// What is printed for the words of a line by some way to take up the parts.
pub fn pass_by(words: &[&[u8]], taken: impl Fn(&Sheet, &[Vec<u8>]) -> Pass) -> Result<String, NoCall> {
    let [sheet, parts @ ..] = words else {
        return Err(NoCall::Wrong);
    };
    if !(1..=MOST_PARTS).contains(&parts.len()) {
        return Err(NoCall::Wrong);
    }
    let sheet: Vec<u8> = slice(sheet)?;
    let parts: Vec<Vec<u8>> = parts.iter().map(|part| slice(part)).collect::<Result<_, _>>()?;
    Ok(match Sheet::read(&sheet, Part::First) {
        Ok(sheet) => pass_words(taken(&sheet, &parts)),
        Err(refusal) => refused(refusal),
    })
}

pub fn pass_words(pass: Pass) -> String {
    match pass {
        Pass::Reached(state) => format!("reached {state}"),
        Pass::Unknown(position) => format!("unknown {position}"),
    }
}

pub fn random_pass(random: &mut Random, _: &mut Search) -> String {
    let sheet = sheet(random);
    let letters = letters_of(&sheet);
    let count = random.between(1, MOST_PARTS);
    let mut parts: Vec<Vec<u8>> = (0..count).map(|_| part(random, letters)).collect();
    // In one part, or in two.
    let unknown = random.pick(&[0, 0, 1, 2]);
    for _ in 0..unknown {
        let part = random.below(count);
        put_unknown(random, &mut parts[part], letters);
    }
    let slices = [sheet].into_iter().chain(parts);
    slices.map(|slice| spelled(random, &slice)).collect::<Vec<_>>().join(" ")
}

/// Mostly short, often empty, now and then long.
fn part(random: &mut Random, letters: usize) -> Vec<u8> {
    let mut part = if random.once_in(5) { Vec::new() } else { word(random, letters) };
    if random.once_in(300) {
        part.resize(u8::LONG, random.below(letters) as u8);
    }
    part
}
