//! What a call told in its answer slice, in words.

use crate::library::CellsMut;

/// The parts by their numbers in an answer.
const PARTS: [&str; 8] = ["first", "second", "opening", "loop", "out", "work", "cursor", "seconds"];

pub fn part(number: u64) -> &'static str {
    PARTS[number as usize]
}

/// Calls with an answer slice of exactly that many bytes: the words of its numbers, or of its refusal.
pub fn told(bytes: usize, call: impl FnOnce(CellsMut) -> u32, words: impl FnOnce(&[u64]) -> String) -> String {
    numbers(bytes, call).map_or_else(|refused| refused, |numbers| words(&numbers))
}

/// The numbers after the leading 0, or the words of the refusal.
pub fn numbers(bytes: usize, call: impl FnOnce(CellsMut) -> u32) -> Result<Vec<u64>, String> {
    // What the call leaves unwritten is no number that may be due.
    let mut answer = vec![0xee; bytes];
    let returned = call(CellsMut::from(&mut answer));
    assert_eq!(returned, 1, "the answer slice is as long as the header says");
    let numbers: Vec<u64> =
        answer.chunks_exact(8).map(|cell| u64::from_le_bytes(cell.try_into().expect("8 bytes"))).collect();
    match numbers[..] {
        [0, ref numbers @ ..] => Ok(numbers.to_vec()),
        [number, concerned, place, ..] => Err(format!("refused {number} {} {place}", part(concerned))),
        _ => unreachable!("every answer has three numbers or more"),
    }
}

/// The answer of a call that fills the out slice.
pub fn filled(bytes: usize, call: impl FnOnce(CellsMut) -> u32) -> String {
    told(bytes, call, |numbers| format!("filled {}", numbers[0]))
}
