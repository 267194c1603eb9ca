//! complement, intersection and union.

use crate::boolean;
use crate::driver::calls::{filled, one_slice, room_needed};
use crate::driver::line::{byte_slices, print, NoCall};
use crate::driver::random_line::{lent, spelled};
use crate::driver::random_sheets::{faulty_pair, sheet};
use crate::generate::{self, Draft};
use crate::inclusion::Search;
use crate::mix::of_sizes;
use crate::random::Random;
use crate::sheet::MOST;

pub fn complement(words: &[&[u8]], _: &mut Search) -> Result<String, NoCall> {
    one_slice(words, boolean::complement)
}

pub fn intersection(words: &[&[u8]], _: &mut Search) -> Result<String, NoCall> {
    let [first, second, mut out] = byte_slices(words)?;
    let answer = filled(boolean::intersection(&first, &second, &mut out));
    Ok(format!("{answer} | {}", print(&out)))
}

pub fn union(words: &[&[u8]], _: &mut Search) -> Result<String, NoCall> {
    let [first, second, mut out] = byte_slices(words)?;
    let answer = filled(boolean::union(&first, &second, &mut out));
    Ok(format!("{answer} | {}", print(&out)))
}

pub fn random_complement(random: &mut Random, _: &mut Search) -> String {
    let sheet = sheet(random);
    let out = lent(random, sheet.len());
    [sheet, out].map(|slice| spelled(random, &slice)).join(" ")
}

pub fn random_product(random: &mut Random, _: &mut Search) -> String {
    let (first, second) = if random.once_in(4) { faulty_pair(random) } else { pair(random) };
    let needed = room_needed(boolean::union(&first, &second, &mut []));
    let out = lent(random, needed);
    [first, second, out].map(|slice| spelled(random, &slice)).join(" ")
}

/// Two sheets whose product is mostly small enough, or just at its limits.
fn pair(random: &mut Random) -> (Vec<u8>, Vec<u8>) {
    const EDGES: [(usize, usize); 10] =
        [(4, 8), (16, 2), (1, 32), (32, 1), (5, 6), (31, 1), (3, 11), (11, 3), (17, 2), (32, 32)];
    let letters = if random.once_in(16) { MOST } else { random.between(1, 4) };
    let other_letters = if random.once_in(12) { random.between(1, 4) } else { letters };
    let few = |random: &mut Random| random.between(1, 4);
    let (first, second): (Draft, Draft) = match random.below(12) {
        0 => {
            let ((states1, states2), (size1, size2)) = (random.pick(&EDGES), (few(random), few(random)));
            (of_sizes(random, letters, states1, size1), of_sizes(random, letters, states2, size2))
        }
        1 => {
            let ((states1, states2), (size1, size2)) = ((few(random), few(random)), random.pick(&EDGES));
            (of_sizes(random, letters, states1, size1), of_sizes(random, letters, states2, size2))
        }
        2 => {
            let ((states1, states2), (size1, size2)) = (random.pick(&EDGES), random.pick(&EDGES));
            (of_sizes(random, 1, states1, size1), of_sizes(random, 1, states2, size2))
        }
        3 => (generate::sheet(random), generate::sheet(random)),
        _ => (generate::sheet_of(random, letters, few), generate::sheet_of(random, other_letters, few)),
    };
    (first.pack(), second.pack())
}
