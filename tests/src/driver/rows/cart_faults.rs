//! Refusals of carts (F-7): every one alone, and which of two goes first. Sheet B has scenes 0 and 1, and accepts a
//! loop that has 0.

use super::carts::{cart_of, Show};
use super::{note, row, table, Row};
use crate::driver::line::print;

/// Two shows, (1, 0) and (0 1, 1 0), of 1 + 6 + 8 = 15 bytes.
const TWO: [Show; 2] = [("1", "0"), ("0,1", "1,0")];
const SHEETS: [(&str, &str); 6] = [
    ("2", "1 first 1"),
    ("33,1", "2 first 0"),
    ("2,0", "3 first 1"),
    ("2,1,0", "4 first 2"),
    ("2,1,1,0,1,0,0,1", "5 first 4"),
    ("2,1,1,0,0,0,0,2", "6 first 7"),
];

pub fn rows() -> Vec<Row> {
    let mut rows = counts();
    rows.extend(cut());
    rows.extend(other_lengths());
    rows.extend(scenes());
    rows.extend(sheet_first());
    rows.extend(form_orders());
    rows.extend(show_orders());
    rows.extend(last_orders());
    rows
}

/// Refused, with room for two cells more than the cart has.
fn refuses(cart: &[u8], refusal: &str) -> Row {
    let room = cart.len() + 2;
    row(&format!("cart B {} {room}*9", print(cart)), &format!("refused {refusal} | {room}*9"))
}

fn counts() -> Vec<Row> {
    table(&[
        ("cart: 28 without a byte, 27 for a count of 0 or above 64, whatever comes after it", ""),
        ("cart B - 9", "refused 28 second 0 | 9"),
        ("cart B - -", "refused 28 second 0 | -"),
        ("cart B 0 9", "refused 27 second 0 | 9"),
        ("cart B 0 -", "refused 27 second 0 | -"),
        ("cart B 0,2*0,1,2*0 6*9", "refused 27 second 0 | 6*9"),
        ("cart B 65 9", "refused 27 second 0 | 9"),
        ("cart B 65,2*0,1,2*0 6*9", "refused 27 second 0 | 6*9"),
        ("cart B 66 9", "refused 27 second 0 | 9"),
        ("cart B 128 9", "refused 27 second 0 | 9"),
        ("cart B 255 9", "refused 27 second 0 | 9"),
        ("cart: 1 and 64 are counts, and it is the length that is wrong", ""),
        ("cart B 1 9", "refused 28 second 1 | 9"),
        ("cart B 64 9", "refused 28 second 1 | 9"),
        ("cart B 63 9", "refused 28 second 1 | 9"),
    ])
}

/// The cart cut off at each byte.
fn cut() -> Vec<Row> {
    let cart = cart_of(&TWO);
    let mut rows = vec![note("cart: two shows, cut off at each byte: 28 at the length that is left")];
    rows.push(row(&format!("cart B {} 15*9", print(&cart)), &format!("loaded 15 | {}", print(&cart))));
    rows.extend((0..cart.len()).map(|length| refuses(&cart[..length], &format!("28 second {length}"))));
    rows.push(note("cart: a long show, cut off in its lengths, in its opening, between both parts, in its loop"));
    let cart = cart_of(&[("300*1", "700*0")]);
    for length in [1, 2, 3, 4, 5, 6, 304, 305, 306, 1003, 1004] {
        rows.push(refuses(&cart[..length], &format!("28 second {length}")));
    }
    rows.push(note("cart: 64 shows, the last of them cut off, or missing"));
    let cart = cart_of(&[("-", "0"); 64]);
    for length in [316, 317, 318, 319, 320] {
        rows.push(refuses(&cart[..length], &format!("28 second {length}")));
    }
    rows
}

/// Bytes left over, and headers that ask for more or fewer scenes.
fn other_lengths() -> Vec<Row> {
    let cart = cart_of(&TWO);
    let mut rows = vec![note("cart: bytes left over, a whole show more, a count that is one too large or too small")];
    for more in [&[0][..], &[9], &[255; 2], &[0; 4], &[0, 0, 1, 0, 0], &[0; 300]] {
        let cart = [&cart[..], more].concat();
        rows.push(refuses(&cart, &format!("28 second {}", cart.len())));
    }
    for count in [1, 3, 64] {
        let cart = [&[count][..], &cart[1..]].concat();
        rows.push(refuses(&cart, "28 second 15"));
    }
    rows.push(note("cart: lengths that are one more or fewer, or 256 more, in each of the four"));
    for (at, old) in [(1, 1), (3, 1), (7, 2), (9, 2)] {
        for (low, high) in [(old + 1, 0), (old - 1, 0), (old, 1), (old, 255), (0, old), (255, 255)] {
            let mut cart = cart.clone();
            (cart[at], cart[at + 1]) = (low, high);
            rows.push(refuses(&cart, "28 second 15"));
        }
    }
    rows.push(note("cart: 65,535 scenes asked for, none there, one too few, one too many"));
    rows.extend(table(&[
        ("cart B 1,2*255,1,0 9*9", "refused 28 second 5 | 9*9"),
        ("cart B 1,2*0,2*255 9*9", "refused 28 second 5 | 9*9"),
        ("cart B 1,4*255 9*9", "refused 28 second 5 | 9*9"),
        ("cart B 1,2*0,2*255,65534*0 9*9", "refused 28 second 65539 | 9*9"),
        ("cart B 1,2*0,2*255,65536*0 9*9", "refused 28 second 65541 | 9*9"),
        ("cart B 1,4*255,131069*0 9*9", "refused 28 second 131074 | 9*9"),
        ("cart B 1,4*255,131071*0 9*9", "refused 28 second 131076 | 9*9"),
    ]));
    rows
}

fn scenes() -> Vec<Row> {
    let mut rows = table(&[
        ("cart: 9 opening, 8 and 9 loop of the only show, with places in the cart", ""),
        ("cart B 2*1,0,1,0,2,0 9*9", "refused 9 opening 5 | 9*9"),
        ("cart B 1,2,0,1,0,0,255,0 9*9", "refused 9 opening 6 | 9*9"),
        ("cart B 1,3,0,1,0,1,2*2,0 9*9", "refused 9 opening 6 | 9*9"),
        ("cart B 1,2*0,1,0,2 9*9", "refused 9 loop 5 | 9*9"),
        ("cart B 1,2*0,3,0,0,2,31 9*9", "refused 9 loop 6 | 9*9"),
        ("cart B 1,2,0,1,0,2*1,32 9*9", "refused 9 loop 7 | 9*9"),
        ("cart B 1,4*0 9*9", "refused 8 loop 5 | 9*9"),
        ("cart B 1,2,3*0,2*1 9*9", "refused 8 loop 7 | 9*9"),
        ("cart B 1,2*255,2*0,65535*1 9*9", "refused 8 loop 65540 | 9*9"),
        ("cart B 1,2*255,2*0,65534*1,2 9*9", "refused 9 opening 65539 | 9*9"),
        ("cart B 1,2*255,1,0,65535*1,2 9*9", "refused 9 loop 65540 | 9*9"),
        ("cart: of the second show of two, of the last of three", ""),
        ("cart B 2,2*0,1,2*0,1,0,1,0,2,0 12*9", "refused 9 opening 10 | 12*9"),
        ("cart B 2,2*0,1,2*0,1,0,1,2*0,2 12*9", "refused 9 loop 11 | 12*9"),
        ("cart B 2,2*0,1,2*0,1,4*0 12*9", "refused 8 loop 11 | 12*9"),
        ("cart B 2,2*0,1,6*0 12*9", "refused 8 loop 10 | 12*9"),
        ("cart B 3,2*0,1,6*0,1,0,1,3*0 17*9", "refused 8 loop 10 | 17*9"),
    ]);
    rows.push(refuses(&cart_of(&[TWO[0], TWO[1], ("1,2", "0")]), "9 opening 20"));
    rows.push(refuses(&cart_of(&[TWO[0], TWO[1], ("1,1", "0,2")]), "9 loop 22"));
    rows.push(refuses(&cart_of(&[TWO[0], TWO[1], ("1,1", "-")]), "8 loop 21"));
    rows.push(note("cart: of the 64th show, whose scenes begin at 1 + 63 x 5 + 4 = 320"));
    let last_of_64 = |last: Show| cart_of(&[vec![("-", "0"); 63], vec![last]].concat());
    rows.push(refuses(&last_of_64(("255", "0")), "9 opening 320"));
    rows.push(refuses(&last_of_64(("0", "0,255")), "9 loop 322"));
    rows.push(refuses(&last_of_64(("2*0", "-")), "8 loop 322"));
    rows.extend(table(&[
        ("cart: the scene count is the sheet's: 31 scenes, 32, and one", ""),
        ("cart C 1,1,0,1,0,1,0 9*9", "refused 9 opening 5 | 9*9"),
        ("cart C 1,2*0,2,2*0,1 9*9", "refused 9 loop 6 | 9*9"),
    ]));
    for (letters, stated) in [(31, "refused 9 loop 6 | 7*9"), (32, "loaded 7 | 2*1,0,1,0,30,31")] {
        let sheet = super::plain(letters, 1, 1, 1);
        rows.push(row(&format!("cart {sheet} 2*1,0,1,0,30,31 7*9"), stated));
        rows.push(row(&format!("cart {sheet} 2*1,0,1,0,30,32 7*9"), "refused 9 loop 6 | 7*9"));
    }
    rows
}

/// The sheet goes before every fault of the cart, and before 21 and the verdicts.
fn sheet_first() -> Vec<Row> {
    let mut rows = vec![note("cart: the sheet goes first, before 28, 27, 28, 9, 8, 9, 21 and the verdicts")];
    let carts = [
        ("-", "9"),
        ("0", "9"),
        ("65", "9"),
        ("1", "9"),
        ("1,2*0,1,3*0", "9*9"),
        ("2*1,0,1,0,255,0", "9*9"),
        ("1,4*0", "9*9"),
        ("1,2*0,1,0,255", "9*9"),
        ("1,2*0,1,2*0", "5*9"),
        ("1,2*0,1,2*0", "-"),
        ("1,2*0,1,0,1", "6*9"),
        ("1,2*0,1,2*0", "6*9"),
    ];
    for (sheet, refusal) in SHEETS {
        for (cart, out) in carts {
            rows.push(row(&format!("cart {sheet} {cart} {out}"), &format!("refused {refusal} | {out}")));
        }
    }
    rows
}

/// 27 and 28 go before all of the shows.
fn form_orders() -> Vec<Row> {
    let mut rows = vec![note("cart: 27 before 28, 9, 8, 9, 21 and the verdicts")];
    let bad = [("2", "0"), ("0", "-"), ("-", "2"), ("0", "1")];
    for show in bad {
        let cart = cart_of(&vec![show; 65]);
        let due = "refused 27 second 0";
        rows.push(row(&format!("cart B {} {}*9", print(&cart), cart.len()), &format!("{due} | {}*9", cart.len())));
        rows.push(row(&format!("cart B {} -", print(&cart)), &format!("{due} | -")));
        let none = [&[0][..], &cart[1..]].concat();
        rows.push(row(&format!("cart B {} 9", print(&none)), &format!("{due} | 9")));
    }
    rows.push(note("cart: 28 before 9, 8, 9, 21 and the verdicts, also of a show before the one that is cut off"));
    for show in bad {
        let cart = cart_of(&[show, ("0", "0")]);
        for length in [cart.len() - 1, cart.len() - 3, cart.len() - 6] {
            rows.push(refuses(&cart[..length], &format!("28 second {length}")));
        }
        let more = [&cart[..], &[0]].concat();
        rows.push(refuses(&more, &format!("28 second {}", more.len())));
        rows.push(row(&format!("cart B {} 2*9", print(&more)), &format!("refused 28 second {} | 2*9", more.len())));
    }
    rows.extend(table(&[
        ("cart B 1,2*0,1,0 -", "refused 28 second 5 | -"),
        ("cart B 1,2*0,1,3*0 6*9", "refused 28 second 7 | 6*9"),
        ("cart B 1,2*0,1,3*0 7*9", "refused 28 second 7 | 7*9"),
    ]));
    rows
}

/// Each show's own 9, 8, 9 before those of the next.
fn show_orders() -> Vec<Row> {
    let mut rows = vec![note("cart: in a show 9 opening before 8 and 9 loop")];
    rows.push(refuses(&cart_of(&[("2", "-")]), "9 opening 5"));
    rows.push(refuses(&cart_of(&[("0,2", "2")]), "9 opening 6"));
    rows.push(refuses(&cart_of(&[("-", "0"), ("0,0,2", "-"), ("2", "2")]), "9 opening 12"));
    rows.push(note(
        "cart: each show's own before those of the next: every fault of the first with every fault of the second",
    ));
    let faults = [("2", "0", "9 opening 5"), ("0", "-", "8 loop 6"), ("0", "2", "9 loop 6")];
    let later = [("2", "0"), ("0", "-"), ("0", "2"), ("2", "-"), ("2", "2"), ("0", "1")];
    for (prefix, period, refusal) in faults {
        for other in later {
            rows.push(refuses(&cart_of(&[(prefix, period), other]), refusal));
            rows.push(refuses(&cart_of(&[(prefix, period), ("-", "0"), other]), refusal));
        }
    }
    rows.push(note("cart: the first of several"));
    rows.push(refuses(&cart_of(&[("-", "0"), ("1", "-"), ("2", "0"), ("1", "-")]), "8 loop 11"));
    rows.push(refuses(&cart_of(&[("-", "0"), ("1", "2,0,2"), ("2", "0"), ("1", "-")]), "9 loop 11"));
    rows
}

/// 21 after all faults of shows and before the verdicts, which come last.
fn last_orders() -> Vec<Row> {
    let mut rows =
        vec![note("cart: 9, 8 and 9, of the last show too, before 21 and before a verdict on an earlier one")];
    for (prefix, period, refusal) in [("2", "0", "9 opening 11"), ("0", "-", "8 loop 12"), ("0", "2", "9 loop 12")] {
        for first in [("0", "0"), ("0", "1")] {
            let cart = cart_of(&[first, (prefix, period)]);
            for out in ["-".to_string(), format!("{}*9", cart.len() - 1), format!("{}*9", cart.len())] {
                rows.push(row(&format!("cart B {} {out}", print(&cart)), &format!("refused {refusal} | {out}")));
            }
        }
    }
    rows.push(note("cart: 21 before the verdicts"));
    for shows in [&[("0", "1")][..], &[("0", "1"), ("0", "0")], &[("0", "0"), ("0", "1")]] {
        let cart = cart_of(shows);
        for out in ["-".to_string(), "2*9".to_string(), format!("{}*9", cart.len() - 1)] {
            let due = format!("refused 21 out {} | {out}", cart.len());
            rows.push(row(&format!("cart B {} {out}", print(&cart)), &due));
        }
    }
    rows
}
