//! Level four (F-5), writing: texts, levels that are none, seconds that are too few or bad, and the order of refusals.

use super::texts::{plain_text, PACKED, TEXTS, TEXT_OF_B};
use super::timed_reading::{some_seconds, timed};
use super::{note, plain, row, table, Row};
use crate::driver::line::print;
use crate::driver::rows::FOUR_OF_B;

/// Numbers that are no level; the low bytes of some would be.
const NO_LEVELS: [u64; 20] = [
    0,
    1,
    2,
    5,
    6,
    7,
    30,
    34,
    255,
    256,
    259,
    260,
    65_539,
    65_540,
    4_294_967_299,
    4_294_967_300,
    9_223_372_036_854_775_811,
    9_223_372_036_854_775_812,
    18_446_744_073_709_551_612,
    18_446_744_073_709_551_615,
];

pub fn rows() -> Vec<Row> {
    let mut rows = written();
    rows.extend(level_three());
    rows.extend(sheets());
    rows.extend(no_levels());
    rows.extend(refused());
    rows.extend(orders());
    rows
}

/// A text that fills the out slice, and the cells behind it.
pub(super) fn filled(text: &str, more: &str) -> String {
    format!("filled {} | {}{more}", text.len(), print(text.as_bytes()))
}

/// Sheet B with its seconds.
fn written() -> Vec<Row> {
    let mut rows =
        vec![note("F-5, writing level four: sheet B with the seconds 7 and 120; just enough room, and more")];
    rows.push(row("write 4 B 7,120 118*9", &filled(FOUR_OF_B, "")));
    rows.push(row("write 4 B 7,120 120*9", &filled(FOUR_OF_B, ",2*9")));
    rows.push(note("writing level four: cells from s on are not judged"));
    for more in ["0", "1000", "65535", "5", "2*0", "0,1000,65535", "65534*0", "65534*1000"] {
        rows.push(row(&format!("write 4 B 7,120,{more} 118*9"), &filled(FOUR_OF_B, "")));
    }
    rows.push(note("writing level four: seconds from 1 to 999"));
    for [first, last] in [[1, 999], [999, 1], [1, 1], [999, 999], [9, 10], [99, 100], [255, 256], [257, 512]] {
        let (text, seconds) = (timed(TEXT_OF_B, &[first, last]), print::<u16>(&[first, last]));
        rows.push(row(&format!("write 4 B {seconds} {}*9", text.len()), &filled(&text, "")));
    }
    rows
}

fn level_three() -> Vec<Row> {
    let mut rows = vec![note("writing level three: the seconds are not looked at")];
    for seconds in ["-", "0", "7", "7,120", "2*0", "2*1000", "0,65535,1000", "65536*65535"] {
        rows.push(row(&format!("write 3 B {seconds} 94*9"), &filled(TEXT_OF_B, "")));
        rows.push(row(&format!("write 3 B {seconds} 93*9"), "refused 21 out 94 | 93*9"));
    }
    rows.push(row("write 3 B 7,120 118*9", &filled(TEXT_OF_B, ",24*9")));
    rows
}

fn sheets() -> Vec<Row> {
    let mut rows = vec![note("writing level four: A to E; C, D and E have one scene")];
    for ((_, text), ((packed, _), scenes)) in TEXTS.iter().zip(PACKED.iter().zip([2, 2, 1, 1, 1])) {
        let seconds = &some_seconds(scenes + 1)[1..];
        let text = timed(text, seconds);
        rows.push(row(&format!("write 4 {packed} {} {}*9", print(seconds), text.len()), &filled(&text, "")));
        let fewer = print(&seconds[1..]);
        let refused = format!("refused 21 seconds {scenes} | {}*9", text.len());
        rows.push(row(&format!("write 4 {packed} {fewer} {}*9", text.len()), &refused));
    }
    rows.push(note("writing level four: 32 scenes, and 11; the last cell missing, bad, or followed by a bad one"));
    for [scenes, states, size] in [[32, 1, 1], [1, 32, 1], [1, 1, 32], [11, 12, 2]] {
        let (sheet, mut seconds) = (plain(scenes, states, size, 1), some_seconds(scenes));
        let text = timed(&plain_text(scenes, states, size), &seconds);
        let write = |seconds: &[u16]| format!("write 4 {sheet} {} {}*9", print(seconds), text.len());
        rows.push(row(&write(&[&seconds[..], &[0]].concat()), &filled(&text, "")));
        let fewer = format!("refused 21 seconds {scenes} | {}*9", text.len());
        rows.push(row(&write(&seconds[..scenes - 1]), &fewer));
        seconds[scenes - 1] = 1000;
        let bad = format!("refused 14 seconds {} | {}*9", scenes - 1, text.len());
        rows.push(row(&write(&seconds), &bad));
    }
    rows.push(note("writing level four: the longest text of a sheet with all next places 0"));
    let longest = timed(&plain_text(32, 32, 32), &[999; 32]).len();
    let refused = format!("refused 21 out {longest} | 9");
    rows.push(row(&format!("write 4 {} 32*999 9", plain(32, 32, 32, 1)), &refused));
    rows
}

/// 10 goes before everything.
fn no_levels() -> Vec<Row> {
    let mut rows = vec![note("writing: 10, of part first, at 0, for a level that is neither 3 nor 4")];
    for level in NO_LEVELS {
        rows.push(row(&format!("write {level} B 7,120 120*9"), "refused 10 first 0 | 120*9"));
    }
    rows.push(note("writing: 10 before the sheet, the seconds and the out slice"));
    for level in [0, 2, 5, 260, 18_446_744_073_709_551_615u64] {
        for sheet in ["-", "2", "0,1", "2,0", "2,1,0", "2,1,2,0,0,1,0,1,1,0", "2,1,1,0,1,0,0,1", "2,1,1,0,0,0,0,2"] {
            rows.push(row(&format!("write {level} {sheet} 7,120 120*9"), "refused 10 first 0 | 120*9"));
        }
        for (seconds, out) in
            [("-", "120*9"), ("0", "120*9"), ("2*0", "120*9"), ("7,120", "9"), ("-", "-"), ("2*0", "-")]
        {
            rows.push(row(&format!("write {level} B {seconds} {out}"), &format!("refused 10 first 0 | {out}")));
        }
        rows.push(row(&format!("write {level} - - -"), "refused 10 first 0 | -"));
    }
    rows
}

fn refused() -> Vec<Row> {
    let mut rows = vec![note("writing level four: 21 for the seconds at s")];
    for seconds in ["-", "7", "999"] {
        rows.push(row(&format!("write 4 B {seconds} 118*9"), "refused 21 seconds 2 | 118*9"));
    }
    rows.push(note("writing level four: 14 at the first cell that is 0 or above 999"));
    for (seconds, place) in [
        ("0,120", 0),
        ("7,0", 1),
        ("2*0", 0),
        ("1000,120", 0),
        ("7,1000", 1),
        ("7,1001", 1),
        ("7,1024", 1),
        ("7,4096", 1),
        ("32768,7", 0),
        ("65535,7", 0),
        ("7,65535", 1),
        ("1000,0", 0),
        ("0,1000", 0),
        ("999,1000", 1),
        ("7,0,0", 1),
        ("7,1000,0", 1),
    ] {
        rows.push(row(&format!("write 4 B {seconds} 118*9"), &format!("refused 14 seconds {place} | 118*9")));
    }
    rows.push(note("writing level four: 21 for the out slice; level three's text would fit"));
    for out in ["117*9", "94*9", "9", "-"] {
        rows.push(row(&format!("write 4 B 7,120 {out}"), &format!("refused 21 out 118 | {out}")));
    }
    rows
}

fn orders() -> Vec<Row> {
    let mut rows = table(&[
        ("writing level four: the sheet before the seconds and the out slice", ""),
        ("write 4 2,1,1,0,0,0,0,2 7,120 -", "refused 6 first 7 | -"),
        ("write 4 2,1,1,0,0,0,0,2 - 200*9", "refused 6 first 7 | 200*9"),
        ("write 4 2,1,1,0,0,0,0,2 7 200*9", "refused 6 first 7 | 200*9"),
        ("write 4 2,1,1,0,0,0,0,2 2*0 200*9", "refused 6 first 7 | 200*9"),
        ("write 4 2,1,1,0,0,0,0,2 0 -", "refused 6 first 7 | -"),
        ("write 4 33,1 - -", "refused 2 first 0 | -"),
        ("write 4 - - -", "refused 1 first 0 | -"),
        ("writing level four: 21 for the seconds before 14, and both before the out slice's", ""),
        ("write 4 B 0 118*9", "refused 21 seconds 2 | 118*9"),
        ("write 4 B 1000 118*9", "refused 21 seconds 2 | 118*9"),
        ("write 4 B 0 -", "refused 21 seconds 2 | -"),
        ("write 4 B 7 117*9", "refused 21 seconds 2 | 117*9"),
        ("write 4 B 7 -", "refused 21 seconds 2 | -"),
        ("write 4 B - -", "refused 21 seconds 2 | -"),
        ("write 4 B 0,120 117*9", "refused 14 seconds 0 | 117*9"),
        ("write 4 B 7,1000 117*9", "refused 14 seconds 1 | 117*9"),
        ("write 4 B 7,0 -", "refused 14 seconds 1 | -"),
        ("write 4 B 65535,7 9", "refused 14 seconds 0 | 9"),
        ("writing level four: cells from s on stay unjudged where the out slice is too short", ""),
        ("write 4 B 7,120,0 117*9", "refused 21 out 118 | 117*9"),
        ("write 4 B 7,120,1000 -", "refused 21 out 118 | -"),
        ("writing level three: the sheet, then the out slice", ""),
        ("write 3 2,1,1,0,0,0,0,2 2*0 -", "refused 6 first 7 | -"),
        ("write 3 - 2*0 -", "refused 1 first 0 | -"),
        ("write 3 B 2*0 -", "refused 21 out 94 | -"),
        ("write 3 B - -", "refused 21 out 94 | -"),
    ]);
    rows.push(note("what was written at either level is read back with the level"));
    rows.push(row("read B4.txt 11*9 7,120", &format!("filled 4 11 | {} 7,120", PACKED[1].0)));
    rows.push(row("read B.txt 11*9 7,120", &format!("filled 3 11 | {} 7,120", PACKED[1].0)));
    rows
}
