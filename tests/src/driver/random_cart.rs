//! Carts at random: of lassos that a sheet accepts, mostly; with rejected ones, with letters that the sheet has not,
//! without a period; with other counts and lengths than they say.

use crate::cart::{pack, HEADER, MOST_SHOWS};
use crate::case::put_unknown;
use crate::driver::line::Cell;
use crate::driver::random_sheets::{faulty, in_order};
use crate::driver::random_show::any_lasso;
use crate::naive::Lasso;
use crate::random::Random;
use crate::rows::complemented;
use crate::verdict::Judge;

/// Lengths at the bounds of one byte, and of two.
const LENGTHS: [usize; 12] = [254, 255, 256, 257, 511, 512, 768, 4097, 65_279, 65_280, 65_534, 65_535];
/// Lassos of more letters come only where there are few.
const FEW: usize = 4;
const SHORT: usize = 200;

/// A sheet and a cart for it.
pub fn sheet_and_cart(random: &mut Random) -> (Vec<u8>, Vec<u8>) {
    let draft = in_order(random);
    let count = count(random);
    let (sheet, mut shows) = shows(random, draft.pack(), count);
    // What a line at random may hold.
    while size(&shows) > u8::LONG {
        shows.pop();
    }
    if random.once_in(4) {
        put_faults(random, &mut shows, draft.letters);
    }
    let mut cart = pack(&shows);
    if random.once_in(5) {
        cart = damaged(random, cart, &shows);
    }
    match random.below(128) {
        0 => (sheet.clone(), sheet),
        1..=16 => (faulty(random), cart),
        _ => (sheet, cart),
    }
}

/// How many lassos: mostly few, often about as many as a cart may have.
fn count(random: &mut Random) -> usize {
    match random.below(16) {
        0..=3 => 1,
        4..=10 => random.between(2, FEW),
        11 => random.between(FEW + 1, 30),
        12 => MOST_SHOWS - 1,
        13..=14 => MOST_SHOWS,
        _ => random.pick(&[MOST_SHOWS + 1, MOST_SHOWS + 1, 66, 128, 255]),
    }
}

/// So many lassos, mostly accepted, and the sheet that they are for: the one given, or the same with every mark turned
/// where it accepts hardly anything.
fn shows(random: &mut Random, sheet: Vec<u8>, count: usize) -> (Vec<u8>, Vec<Lasso>) {
    let (mut accepted, mut rejected) = some_shows(random, &sheet, count <= FEW);
    let is_turned = accepted.is_empty() && !random.once_in(8);
    if is_turned {
        std::mem::swap(&mut accepted, &mut rejected);
    }
    let sheet = if is_turned { complemented(&sheet) } else { sheet };
    let (last, any, another) = (count - 1, random.below(count), random.below(count));
    let rejected_at: &[usize] = match random.below(16) {
        0 => &[0],
        1 => &[last],
        2 => &[any],
        3 => &[any, last],
        4 => &[any, another],
        _ => &[],
    };
    let show = |at: usize| {
        let (wanted, other) = if rejected_at.contains(&at) { (&rejected, &accepted) } else { (&accepted, &rejected) };
        let from = if wanted.is_empty() { other } else { wanted };
        from[random.below(from.len())].clone()
    };
    (sheet, (0..count).map(show).collect())
}

/// Some lassos that a sheet accepts, and some that it rejects; now and then very long ones.
pub fn some_shows(random: &mut Random, sheet: &[u8], some_are_long: bool) -> (Vec<Lasso>, Vec<Lasso>) {
    const COUNT: usize = 12;
    let judge = Judge::new(sheet).expect("the sheet is in order");
    let letters = judge.letters();
    let has_long = some_are_long && random.once_in(16);
    let lassos = (0..COUNT).map(|at| {
        let (mut prefix, mut period) = any_lasso(random, letters);
        if has_long && at < 2 {
            let part = if random.once_in(2) { &mut prefix } else { &mut period };
            repeat(part, random.pick(&LENGTHS));
        } else if !some_are_long {
            prefix.truncate(SHORT);
            period.truncate(SHORT);
        }
        (prefix, period)
    });
    lassos.partition(|(prefix, period)| judge.verdict(prefix, period).is_ok_and(|given| given.accepted))
}

/// The word again and again up to a length; without a letter that is letter 0.
fn repeat(word: &mut Vec<u8>, length: usize) {
    let block = if word.is_empty() { vec![0] } else { word.clone() };
    *word = block.into_iter().cycle().take(length).collect();
}

fn size(shows: &[Lasso]) -> usize {
    1 + shows.iter().map(|(prefix, period)| HEADER + prefix.len() + period.len()).sum::<usize>()
}

/// One to three lassos with letters that are not below the count, or without a period; or with several of these.
fn put_faults(random: &mut Random, shows: &mut [Lasso], letters: usize) {
    for _ in 0..random.between(1, 3) {
        let at = random.below(shows.len());
        let at = random.pick(&[0, at, at, shows.len() - 1]);
        let (prefix, period) = &mut shows[at];
        if random.once_in(3) {
            period.clear();
        }
        if random.once_in(4) {
            if prefix.is_empty() {
                prefix.push(0);
            }
            put_unknown(random, prefix, letters);
        }
        if random.once_in(2) {
            put_unknown(random, period, letters);
        }
    }
}

/// A cart with another count, another length in a header, cut off, with more bytes, or with other ones.
fn damaged(random: &mut Random, mut cart: Vec<u8>, shows: &[Lasso]) -> Vec<u8> {
    let (length, at) = (cart.len(), random.below(cart.len()));
    let last_or_any = random.pick(&[length - 1, at]);
    match random.below(16) {
        0..=4 => {
            let count = cart[0];
            let any = random.byte();
            let most = MOST_SHOWS as u8;
            cart[0] = random.pick(&[
                0,
                0,
                1,
                most - 1,
                most,
                most + 1,
                255,
                count.wrapping_add(1),
                count.wrapping_sub(1),
                any,
            ]);
        }
        5 => cart.clear(),
        6..=7 => cart.truncate(last_or_any),
        8..=9 => {
            let more = random.between(1, 9);
            cart.extend(random.bytes(more));
        }
        10..=12 => {
            let header = header_of(random, shows);
            let at = header + random.below(HEADER);
            let (one, any) = (random.pick(&[1, 255]), random.byte());
            cart[at] = random.pick(&[cart[at].wrapping_add(one), cart[at].wrapping_add(one), 0, any]);
        }
        13 => {
            // High bytes first, or the loop's length first.
            let header = header_of(random, shows);
            let [a, b, c, d] = [0, 1, 2, 3].map(|at| cart[header + at]);
            cart[header..header + HEADER].copy_from_slice(&random.pick(&[[b, a, d, c], [c, d, a, b]]));
        }
        14 => drop(cart.remove(at)),
        _ => cart.insert(at, random.pick(&[0, 1, 31, 32, 255])),
    }
    cart
}

/// The place of some lasso's lengths.
fn header_of(random: &mut Random, shows: &[Lasso]) -> usize {
    size(&shows[..random.below(shows.len())])
}
