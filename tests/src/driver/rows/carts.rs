//! Carts (F-7): loaded ones and those with a rejected show; counts, lengths, and the longest carts. Their refusals are
//! in `cart_faults`.
//!
//! Sheet B accepts a show whose loop has scene 0; A accepts all, C a loop of even length. E has one scene and accepts a
//! show where its leading place, for ever 1 and 2 in turn after the first scene, is 1: (-, 0) and (0, 0), neither (0 0,
//! 0) nor (-, 0 0).

use super::{note, row, table, Row};
use crate::cart::pack;
use crate::driver::line::{print, slice};

/// Opening and loop of a show, each as the word of a slice.
pub type Show<'a> = (&'a str, &'a str);

/// Shows of B: accepted, and rejected.
const GOOD: Show = ("-", "0");
const BAD: Show = ("0", "1");

pub fn rows() -> Vec<Row> {
    let mut rows = loaded();
    rows.extend(rejected());
    rows.extend(verdicts());
    rows.extend(counts());
    rows.extend(lengths());
    rows.extend(longest());
    rows.extend(no_calls());
    rows
}

pub fn cart_of(shows: &[Show]) -> Vec<u8> {
    let word = |word: &str| slice(word.as_bytes()).expect("a slice");
    pack(&shows.iter().map(|(prefix, period)| (word(prefix), word(period))).collect::<Vec<_>>())
}

/// Loaded, with just enough room.
fn loads(sheet: &str, shows: &[Show]) -> Row {
    let cart = cart_of(shows);
    let (length, word) = (cart.len(), print(&cart));
    row(&format!("cart {sheet} {word} {length}*99"), &format!("loaded {length} | {word}"))
}

/// Not loaded for the show of that index; there is room for one cell more.
fn rejects(sheet: &str, shows: &[Show], index: usize) -> Row {
    let cart = cart_of(shows);
    let room = cart.len() + 1;
    row(&format!("cart {sheet} {} {room}*99", print(&cart)), &format!("rejected {index} | {room}*99"))
}

fn loaded() -> Vec<Row> {
    let mut rows = table(&[
        ("F-7, carts: one show and two; just enough room, more, whose cells stay, one cell too few, none", ""),
        ("cart B 1,2*0,1,2*0 6*9", "loaded 6 | 1,2*0,1,2*0"),
        ("cart B 1,2*0,1,2*0 7*9", "loaded 6 | 1,2*0,1,2*0,9"),
        ("cart B 1,2*0,1,2*0 6*8,7,9,3*0", "loaded 6 | 1,2*0,1,2*0,7,9,3*0"),
        ("cart B 1,2*0,1,2*0 5*9", "refused 21 out 6 | 5*9"),
        ("cart B 1,2*0,1,2*0 9", "refused 21 out 6 | 9"),
        ("cart B 1,2*0,1,2*0 -", "refused 21 out 6 | -"),
        ("cart B 2,2*0,1,2*0,1,0,2,0,2*1,0 13*9", "loaded 13 | 2,2*0,1,2*0,1,0,2,0,2*1,0"),
        ("cart B 2,2*0,1,2*0,1,0,2,0,2*1,0 100*9", "loaded 13 | 2,2*0,1,2*0,1,0,2,0,2*1,0,87*9"),
        ("cart B 2,2*0,1,2*0,1,0,2,0,2*1,0 12*9", "refused 21 out 13 | 12*9"),
        ("cart: spelled in another way, and what is in the out slice before says nothing", ""),
        ("cart B 1,0,0,1,0,0 1,0,0,1,0,0,1", "loaded 6 | 1,2*0,1,2*0,1"),
        ("cart B 1*1,2*0,1,0,1*0 6*0,2", "loaded 6 | 1,2*0,1,2*0,2"),
        ("cart B 1,2*0,1,0,1 1,2*0,1,0,1", "rejected 0 | 1,2*0,1,0,1"),
    ]);
    rows.push(note("cart: a show twice, and shows of many scenes"));
    rows.push(loads("B", &[GOOD, GOOD]));
    rows.push(loads("A", &[GOOD, BAD, ("1,0", "1,0,1")]));
    rows.push(loads("HALL", &[("1", "1,0"), ("2*1,0", "1,0")]));
    rows
}

fn rejected() -> Vec<Row> {
    let mut rows =
        vec![note("cart: a show is rejected: the only one, the first, one between, the last; the first of several")];
    rows.push(row("cart B 1,0,0,1,0,1 6*9", "rejected 0 | 6*9"));
    rows.push(row("cart B 2,2*0,1,2*0,1,0,1,0,0,1 12*9", "rejected 1 | 12*9"));
    rows.push(row("cart B 2,2*0,1,0,1,2*0,1,2*0 11*9", "rejected 0 | 11*9"));
    rows.push(rejects("B", &[BAD], 0));
    for (shows, index) in [
        ([BAD, GOOD, GOOD, GOOD], 0),
        ([GOOD, BAD, GOOD, GOOD], 1),
        ([GOOD, GOOD, BAD, GOOD], 2),
        ([GOOD, GOOD, GOOD, BAD], 3),
        ([BAD, GOOD, GOOD, BAD], 0),
        ([GOOD, BAD, BAD, GOOD], 1),
        ([GOOD, BAD, GOOD, BAD], 1),
        ([BAD, BAD, BAD, BAD], 0),
        ([GOOD, BAD, BAD, BAD], 1),
    ] {
        rows.push(rejects("B", &shows, index));
    }
    rows.push(note("cart: the same shows and the complement, whose verdicts are the others"));
    rows.push(loads("co-B", &[BAD, BAD, BAD]));
    rows.push(rejects("co-B", &[BAD, GOOD, BAD], 1));
    rows.push(rejects("co-A", &[GOOD, GOOD], 0));
    rows
}

/// Verdicts that a shortcut gets wrong.
fn verdicts() -> Vec<Row> {
    let mut rows = vec![note("cart: the verdict is 002's: shows that do not close")];
    rows.push(loads("E", &[("-", "0"), ("0", "0")]));
    rows.push(rejects("E", &[("-", "0"), ("2*0", "0")], 1));
    rows.push(rejects("E", &[("0", "0"), ("-", "2*0")], 1));
    rows.push(rejects("E", &[("2*0", "0"), ("-", "0")], 0));
    rows.push(loads("C", &[("-", "2*0"), ("0", "4*0")]));
    rows.push(rejects("C", &[("-", "2*0"), ("0", "4*0"), ("-", "3*0")], 2));
    rows.push(note("cart: each show begins at place 0, wherever the one before it ended"));
    rows.push(loads("E", &[("0", "0"), ("0", "0"), ("3*0", "0")]));
    rows.push(rejects("E", &[("0", "0"), ("0", "0"), ("2*0", "0")], 2));
    rows.push(rejects("E", &[("0", "0"), ("4*0", "0"), ("0", "0")], 1));
    rows.push(note("cart: the opening decides, the order of scenes too"));
    rows.push(loads("HALL", &[("1", "1,0")]));
    rows.push(rejects("HALL", &[("1", "1,0"), ("0", "1,0")], 1));
    rows.push(rejects("HALL", &[("1", "1,0"), ("1", "0,1")], 1));
    rows.push(loads("B", &[("2*1", "1,0"), ("-", "0,1"), ("1,0", "2*1,0")]));
    rows.push(rejects("B", &[("2*1", "1,0"), ("2*0", "2*1")], 1));
    rows
}

/// So many shows, of which some are rejected.
fn many(count: usize, bad: &[usize]) -> Vec<Show<'static>> {
    (0..count).map(|at| if bad.contains(&at) { BAD } else { GOOD }).collect()
}

fn counts() -> Vec<Row> {
    let mut rows = vec![note("cart: 1, 2, 3, 32, 63 and 64 shows, all accepted; 65 and more")];
    for count in [1, 2, 3, 32, 63, 64] {
        rows.push(loads("B", &many(count, &[])));
    }
    for count in [65, 66, 127, 128, 129, 192, 255] {
        let cart = cart_of(&many(count, &[]));
        let line = format!("cart B {} {}*9", print(&cart), cart.len());
        rows.push(row(&line, &format!("refused 27 second 0 | {}*9", cart.len())));
    }
    rows.push(note("cart: of 64 shows one is rejected, or two"));
    for bad in [0, 1, 31, 32, 62, 63] {
        rows.push(rejects("B", &many(64, &[bad]), bad));
        rows.push(rejects("B", &many(64, &[bad, 63]), bad));
    }
    rows.push(rejects("B", &many(63, &[62]), 62));
    rows
}

/// Lengths about a byte, and the longest.
fn lengths() -> Vec<Row> {
    let mut rows = vec![note("cart: lengths of one byte and of two, low byte first")];
    for length in [1, 2, 3, 254, 255, 256, 257, 258, 511, 512, 513, 65_279, 65_280, 65_534, 65_535] {
        let zeros = &format!("{length}*0")[..];
        let ones = &format!("{length}*1")[..];
        let last = &if length == 1 { "0".to_string() } else { format!("{}*1,0", length - 1) }[..];
        rows.push(loads("B", &[(ones, "0"), ("-", zeros), GOOD]));
        rows.push(rejects("B", &[("-", zeros), (zeros, "1"), ("-", ones)], 1));
        rows.push(rejects("B", &[("-", ones), GOOD], 0));
        rows.push(loads("B", &[(ones, last), GOOD]));
    }
    rows.push(note("cart: the bytes of both lengths all differ"));
    rows.push(loads("B", &[("513*1", "1027*0"), ("1541*0", "2055*1,0")]));
    rows.push(rejects("B", &[("513*1", "1027*0"), ("1541*0", "2055*1")], 1));
    rows.push(note("cart: one scene is of the opening or of the loop, by the lengths"));
    rows.push(row("cart B 2*1,0,2,0,1,0,1 8*9", "loaded 8 | 2*1,0,2,0,1,0,1"));
    rows.push(row("cart B 1,2,0,1,0,1,0,1 8*9", "rejected 0 | 8*9"));
    rows.push(row("cart B 1,2*0,3,0,1,0,1 8*9", "loaded 8 | 1,2*0,3,0,1,0,1"));
    rows.push(note("cart: the parity of a long opening, whose last scene counts"));
    rows.push(loads("E", &[("65535*0", "0"), ("65533*0", "0")]));
    rows.push(rejects("E", &[("65535*0", "0"), ("65534*0", "0")], 1));
    rows.push(loads("C", &[("-", "65534*0")]));
    rows.push(rejects("C", &[("-", "65534*0"), ("-", "65535*0")], 1));
    rows
}

/// 1 + 64 x (4 + 65,535 + 65,535) = 8,388,737 bytes.
pub fn longest() -> Vec<Row> {
    let good = ",4*255,131069*1,0";
    let bad = ",4*255,131070*1";
    let cart = format!("64{}", good.repeat(64));
    let but = |at: usize| format!("64{}{bad}{}", good.repeat(at), good.repeat(63 - at));
    let mut rows = vec![note("cart: the longest, 64 shows of 65,535 scenes in each part")];
    rows.push(row(&format!("cart B {cart} 8388737*99"), &format!("loaded 8388737 | {cart}")));
    rows.push(row(&format!("cart B {cart} 8388740*99"), &format!("loaded 8388737 | {cart},3*99")));
    rows.push(row(&format!("cart B {cart} 8388736*99"), "refused 21 out 8388737 | 8388736*99"));
    for at in [0, 40, 63] {
        rows.push(row(&format!("cart B {} 8388737*99", but(at)), &format!("rejected {at} | 8388737*99")));
    }
    rows.push(row(&format!("cart B {cart},0 8388738*99"), "refused 28 second 8388738 | 8388738*99"));
    let short = cart.strip_suffix(",0").expect("the last scene is 0");
    rows.push(row(&format!("cart B {short} 8388737*99"), "refused 28 second 8388736 | 8388737*99"));
    // The last scene of all, at 8,388,736.
    rows.push(row(&format!("cart B {short},2 -"), "refused 9 loop 8388736 | -"));
    rows
}

fn no_calls() -> Vec<Row> {
    const LINES: [&str; 13] = [
        "cart",
        "cart B",
        "cart B 1,2*0,1,2*0",
        "cart B 1,2*0,1,2*0 6*9 -",
        "cart 256 1,2*0,1,2*0 6*9",
        "cart B 1,2*0,1,0,256 6*9",
        "cart B 1,2*0,1,2*0 256",
        "cart  B 1,2*0,1,2*0 6*9",
        "cart B 1,2*0,1,2*0, 6*9",
        "cart B 1,2*0,1,0*0 6*9",
        "carts B 1,2*0,1,2*0 6*9",
        "car B 1,2*0,1,2*0 6*9",
        "Cart B 1,2*0,1,2*0 6*9",
    ];
    let mut rows = vec![note("cart: lines that are no call")];
    rows.extend(table(&LINES.map(|line| (line, "no call"))));
    rows
}
