//! cart.

use crate::cart::{self, Answer};
use crate::driver::calls::refused;
use crate::driver::line::{byte_slices, print, NoCall};
use crate::driver::random_cart::sheet_and_cart;
use crate::driver::random_line::{lent, spelled};
use crate::inclusion::Search;
use crate::random::Random;
use crate::sheet::Refusal;

pub fn cart(words: &[&[u8]], _: &mut Search) -> Result<String, NoCall> {
    cart_by(words, cart::load)
}

/// What is printed for the words of a line by some way to load.
pub fn cart_by(
    words: &[&[u8]],
    load: impl FnOnce(&[u8], &[u8], &mut [u8]) -> Result<Answer, Refusal>,
) -> Result<String, NoCall> {
    let [sheet, cart, mut out] = byte_slices(words)?;
    let answer = match load(&sheet, &cart, &mut out) {
        Ok(Answer::Loaded(length)) => format!("loaded {length}"),
        Ok(Answer::Rejected(index)) => format!("rejected {index}"),
        Err(refusal) => refused(refusal),
    };
    Ok(format!("{answer} | {}", print(&out)))
}

/// Every fault comes alone and with others.
pub fn random_cart(random: &mut Random, _: &mut Search) -> String {
    let (sheet, cart) = sheet_and_cart(random);
    let out = lent(random, cart.len());
    [sheet, cart, out].map(|slice| spelled(random, &slice)).join(" ")
}
