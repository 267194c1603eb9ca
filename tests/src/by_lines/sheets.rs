//! check, verdict, complement, intersection, union and cart.

use crate::by_lines::bytes;
use crate::by_lines::told::{filled, told};
use crate::driver::line::{print, NoCall};
use crate::layout::{CART_BYTES, CHECK_BYTES, COMPLEMENT_BYTES, INTERSECTION_BYTES, UNION_BYTES, VERDICT_BYTES};
use crate::library::{self, Cells, CellsMut};

pub fn check(words: &[&[u8]]) -> Result<String, NoCall> {
    let [sheet] = bytes(words)?;
    let call = |answer: CellsMut| library::check(Cells::from(&sheet), answer);
    Ok(told(CHECK_BYTES, call, |numbers| format!("valid {} {} {}", numbers[0], numbers[1], numbers[2])))
}

pub fn verdict(words: &[&[u8]]) -> Result<String, NoCall> {
    let [sheet, prefix, period] = bytes(words)?;
    let call =
        |answer: CellsMut| library::verdict(Cells::from(&sheet), Cells::from(&prefix), Cells::from(&period), answer);
    Ok(told(VERDICT_BYTES, call, |numbers| {
        let verdict = match numbers[0] {
            0 => "rejected",
            1 => "accepted",
            other => panic!("a verdict is 0 or 1, not {other}"),
        };
        format!("{verdict} {} {} {} {}", numbers[1], numbers[2], numbers[3], numbers[4])
    }))
}

pub fn complement(words: &[&[u8]]) -> Result<String, NoCall> {
    let [sheet, mut out] = bytes(words)?;
    let call = |answer: CellsMut| library::complement(Cells::from(&sheet), CellsMut::from(&mut out), answer);
    let answer = filled(COMPLEMENT_BYTES, call);
    Ok(format!("{answer} | {}", print(&out)))
}

pub fn intersection(words: &[&[u8]]) -> Result<String, NoCall> {
    product(words, INTERSECTION_BYTES, library::intersection)
}

pub fn union(words: &[&[u8]]) -> Result<String, NoCall> {
    product(words, UNION_BYTES, library::union)
}

fn product(
    words: &[&[u8]],
    answer_bytes: usize,
    product: fn(Cells, Cells, CellsMut, CellsMut) -> u32,
) -> Result<String, NoCall> {
    let [first, second, mut out] = bytes(words)?;
    let call = |answer: CellsMut| product(Cells::from(&first), Cells::from(&second), CellsMut::from(&mut out), answer);
    let answer = filled(answer_bytes, call);
    Ok(format!("{answer} | {}", print(&out)))
}

pub fn cart(words: &[&[u8]]) -> Result<String, NoCall> {
    let [sheet, cart, mut out] = bytes(words)?;
    let call =
        |answer: CellsMut| library::cart(Cells::from(&sheet), Cells::from(&cart), CellsMut::from(&mut out), answer);
    let answer = told(CART_BYTES, call, |numbers| match numbers[0] {
        0 => format!("rejected {}", numbers[1]),
        1 => format!("loaded {}", numbers[1]),
        other => panic!("a cart is loaded, 1, or not, 0, not {other}"),
    });
    Ok(format!("{answer} | {}", print(&out)))
}
