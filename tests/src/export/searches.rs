//! compare_in and emptiness.

use crate::driver::inclusion::{clear, compared};
use crate::emptiness::{first_accepted, nothing};
use crate::export::{bytes_of, cells_of, words, Given, Slice, LINE};
use crate::inclusion::Search;
use crate::layout::{inclusion_numbers, Told};
use crate::random::Random;

pub fn compare_in(_: &[usize], slices: &mut [Slice], search: &mut Search) -> Told {
    let [Slice::Bytes(first), Slice::Bytes(second), Slice::Bytes(prefix), Slice::Bytes(period), Slice::Work(work)] =
        slices
    else {
        unreachable!("a call has its slices")
    };
    let result = compared(search, work.len(), first, second, prefix, period);
    clear(work, &result, first, second);
    result.map(inclusion_numbers)
}

pub fn emptiness(_: &[usize], slices: &mut [Slice], search: &mut Search) -> Told {
    let [Slice::Bytes(sheet), Slice::Bytes(prefix), Slice::Bytes(period), Slice::Work(work)] = slices else {
        unreachable!("a call has its slices")
    };
    let result = first_accepted(search, work.len(), sheet, prefix, period);
    clear(work, &result, sheet, &nothing(1));
    result.map(inclusion_numbers)
}

pub fn random_compare_in(random: &mut Random, search: &mut Search) -> Given {
    with_work(words(random, search, "compare"))
}

pub fn random_emptiness(random: &mut Random, search: &mut Search) -> Given {
    with_work(words(random, search, "emptiness"))
}

/// Byte slices, and the work cells as the last word.
pub fn with_work(words: Vec<String>) -> Given {
    let (work, words) = words.split_last().expect("there are work cells");
    let slices = words.iter().map(|word| bytes_of(word)).chain([Slice::Work(cells_of(work))]).collect();
    Given { kind: LINE, numbers: Vec::new(), slices }
}
