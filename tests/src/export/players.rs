//! verdict and compare.

use crate::case::{letters_of, put_unknown, room_length, word};
use crate::export::{bytes, Given, Slice};
use crate::inclusion::{Inclusion, Search, CELLS};
use crate::layout::{inclusion_numbers, verdict_numbers, Told};
use crate::mix::{any_sheet, sheet_pair};
use crate::random::Random;

pub fn verdict(_: &[usize], slices: &mut [Slice], _: &mut Search) -> Told {
    let [sheet, prefix, period] = bytes(slices);
    crate::verdict::verdict(sheet, prefix, period).map(verdict_numbers)
}

pub fn compare(_: &[usize], slices: &mut [Slice], search: &mut Search) -> Told {
    let [first, second, prefix, period] = bytes(slices);
    let found = search.compare(first, second, prefix, period)?;
    found.assert_walked([first, second], prefix, period);
    Ok(inclusion_numbers(found))
}

pub fn random_verdict(random: &mut Random, _: &mut Search) -> Given {
    let (kind, sheet) = any_sheet(random);
    let letters = letters_of(&sheet);
    let mut prefix = word(random, letters);
    let mut period = if random.once_in(8) { Vec::new() } else { word(random, letters) };
    let alike = random.once_in(32);
    if alike {
        period = prefix.clone();
    }
    for word in [&mut prefix, &mut period] {
        if !alike && random.once_in(6) {
            put_unknown(random, word, letters);
        }
    }
    Given { kind, numbers: Vec::new(), slices: [sheet, prefix, period].map(Slice::Bytes).into() }
}

pub fn random_compare(random: &mut Random, search: &mut Search) -> Given {
    let (kind, first, second) = sheet_pair(random);
    let (mut longest_prefix, mut longest_period) = ([0; CELLS], [0; CELLS]);
    let needed = match search.compare(&first, &second, &mut longest_prefix, &mut longest_period) {
        Ok(Inclusion::Missing { prefix, period, .. }) => (prefix, period),
        _ => (0, 0),
    };
    let prefix = room(random, needed.0);
    let period = room(random, needed.1);
    Given { kind, numbers: Vec::new(), slices: [first, second, prefix, period].map(Slice::Bytes).into() }
}

/// Room for a word, with anything in it.
fn room(random: &mut Random, needed: usize) -> Vec<u8> {
    let length = room_length(random, needed);
    random.bytes(length)
}
