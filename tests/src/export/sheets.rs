//! check, complement, intersection, union and cart.

use crate::boolean;
use crate::cart::{load, Answer};
use crate::export::{bytes, Slice};
use crate::inclusion::Search;
use crate::layout::Told;
use crate::sheet::{Part, Sheet};

pub fn check(_: &[usize], slices: &mut [Slice], _: &mut Search) -> Told {
    let [sheet] = bytes(slices);
    Sheet::read(sheet, Part::First).map(|sheet| vec![sheet.letters, sheet.states, sheet.largest_size()])
}

pub fn complement(_: &[usize], slices: &mut [Slice], _: &mut Search) -> Told {
    let [sheet, out] = bytes(slices);
    Ok(vec![boolean::complement(sheet, out)?])
}

pub fn intersection(_: &[usize], slices: &mut [Slice], _: &mut Search) -> Told {
    let [first, second, out] = bytes(slices);
    Ok(vec![boolean::intersection(first, second, out)?])
}

pub fn union(_: &[usize], slices: &mut [Slice], _: &mut Search) -> Told {
    let [first, second, out] = bytes(slices);
    Ok(vec![boolean::union(first, second, out)?])
}

pub fn cart(_: &[usize], slices: &mut [Slice], _: &mut Search) -> Told {
    let [sheet, cart, out] = bytes(slices);
    load(sheet, cart, out).map(Answer::numbers)
}
