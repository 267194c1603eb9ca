//! The sheet as text, level three: 01's text, its refusals and their places, texts that end early, and numbers. The seconds slice, which
//! F-5 lends too, is another from row to row and never changed. Level four is in `timed_reading` and `timed_writing`.

use super::{edited, note, plain, row, table, Row};
use crate::driver::line::print;

/// The texts of 01's sheets; B's stands in 01 itself.
pub const TEXTS: [(&str, &str); 5] = [
    ("A.txt", "level scenes places\n3 2 1\nplace loops s0 s1\n0 1 0 0\nplace loop mark s0 s1\n0 0 1 0 0\n"),
    ("B.txt", TEXT_OF_B),
    ("C.txt", "level scenes places\n3 1 1\nplace loops s0\n0 2 0\nplace loop mark s0\n0 0 1 1\n0 1 0 0\n"),
    ("D.txt", "level scenes places\n3 1 2\nplace loops s0\n0 1 1\n1 1 0\nplace loop mark s0\n0 0 1 0\n1 0 1 0\n"),
    (
        "E.txt",
        "level scenes places\n3 1 3\nplace loops s0\n0 1 1\n1 1 2\n2 1 1\nplace loop mark s0\n0 0 0 0\n1 0 1 0\n2 0 0 0\n",
    ),
];

/// Those sheets and their lengths.
pub const PACKED: [(&str, usize); 5] = [
    ("2,2*1,4*0,1", 8),
    ("2,1,2,2*0,1,0,2*1,0,1", 11),
    ("2*1,2,0,1,0,1,0", 8),
    ("1,2,3*1,2*0,1,0,1", 10),
    ("1,3,4*1,2,1,3*0,1,2*0", 14),
];

pub const TEXT_OF_B: &str =
    "level scenes places\n3 2 1\nplace loops s0 s1\n0 2 0 0\nplace loop mark s0 s1\n0 0 0 1 0\n0 1 1 1 1\n";

/// Seconds slices: none, too short for any sheet here, good cells, bad ones.
const SECONDS: [&str; 7] = ["-", "8", "2*7", "3*0", "2*1000", "65535", "1,999,5*3"];

/// Changes of B's text.
const EDITS: &[(&str, &str, &str)] = &[
    ("text: 10 for the level", "", ""),
    ("3 2 1", "2 2 1", "10 20"),
    ("3 2 1", "5 2 1", "10 20"),
    ("3 2 1", "0 2 1", "10 20"),
    ("3 2 1", "259 2 1", "10 20"),
    ("text: 2 for scenes, 3 for places, 4 for loops", "", ""),
    ("3 2 1", "3 0 1", "2 22"),
    ("3 2 1", "3 33 1", "2 22"),
    ("3 2 1", "3 258 1", "2 22"),
    ("3 2 1", "3 2 0", "3 24"),
    ("3 2 1", "3 2 33", "3 24"),
    ("0 2 0 0", "0 0 0 0", "4 46"),
    ("0 2 0 0", "0 33 0 0", "4 46"),
    ("text: 5 for a next place: below n in the second block, below k(q) in the third; 6 for a mark", "", ""),
    ("0 2 0 0", "0 2 1 0", "5 48"),
    ("0 2 0 0", "0 2 0 1", "5 50"),
    ("0 2 0 0", "0 2 256 0", "5 48"),
    ("0 0 0 1 0", "0 0 0 2 0", "5 80"),
    ("0 1 1 1 1", "0 1 1 1 2", "5 92"),
    ("0 0 0 1 0", "0 0 2 1 0", "6 78"),
    ("0 1 1 1 1", "0 1 257 1 1", "6 88"),
    ("text: 12 for a place or loop number that is not the one due, also when far out of range", "", ""),
    ("0 2 0 0", "1 2 0 0", "12 44"),
    ("0 2 0 0", "999 2 0 0", "12 44"),
    ("0 0 0 1 0", "1 0 0 1 0", "12 74"),
    ("0 0 0 1 0", "0 1 0 1 0", "12 76"),
    ("0 1 1 1 1", "0 0 1 1 1", "12 86"),
    ("0 1 1 1 1", "0 2 1 1 1", "12 86"),
    ("0 1 1 1 1", "0 999 1 1 1", "12 86"),
    ("0 1 1 1 1", "256 1 1 1 1", "12 84"),
    ("text: a good run is judged for range before the byte after it is looked at", "", ""),
    ("3 2 1", "3 40x 1", "2 22"),
    ("3 2 1", "3 4x 1", "11 23"),
    ("3 2 1", "5x2 1", "10 20"),
    ("3 2 1", "3x2 1", "11 21"),
    ("0 0 0 1 0", "0 0 0 2x0", "5 80"),
    ("text: a run of bad form is 11 at its first byte, its range unjudged", "", ""),
    ("3 2 1", "03 2 1", "11 20"),
    ("3 2 1", "9999 2 1", "11 20"),
    ("3 2 1", "3 02 1", "11 22"),
    ("3 2 1", "3 033 1", "11 22"),
    ("3 2 1", "3 1234 1", "11 22"),
    ("3 2 1", "3 2 00", "11 24"),
    ("0 1 1 1 1", "0 1 01 1 1", "11 88"),
    ("0 1 1 1 1", "0 1 1 1 18446744073709551617", "11 92"),
    ("text: where a digit is due and there is none", "", ""),
    ("3 2 1", "x 2 1", "11 20"),
    ("3 2 1", "3  2 1", "11 22"),
    ("3 2 1", "3 2 ", "11 24"),
    ("3 2 1", "3 -2 1", "11 22"),
    ("3 2 1", "3 2 1 ", "11 25"),
    ("0 2 0 0", "0 2 :0", "11 48"),
    ("text: names are literals", "", ""),
    ("level", "Level", "11 0"),
    ("places", "place", "11 18"),
    ("loops s0", "loops x0", "11 38"),
    ("loops s0", "loops s00", "11 40"),
    ("s0 s1\n0 2", "s0 s2\n0 2", "11 42"),
    ("s0 s1\n0 2", "s0 s01\n0 2", "11 42"),
    ("s0 s1\n0 2", "s0\n0 2", "11 40"),
    ("s0 s1\n0 2", "s0 s1 s2\n0 2", "11 43"),
    ("loop mark", "loop marks", "11 67"),
    ("loop mark", "mark loop", "11 58"),
    ("text: another row, a missing row, other line ends, more bytes", "", ""),
    ("0 2 0 0\n", "0 2 0 0 0\n", "11 51"),
    ("0 2 0 0\n", "0 2 0\n", "11 49"),
    ("0 2 0 0\n", "0 2 0 0\n1 1 0 0\n", "11 52"),
    ("0 2 0 0\n", "", "11 44"),
    ("0 0 0 1 0\n", "", "12 76"),
    ("0 1 1 1 1\n", "", "11 84"),
    ("0 1 1 1 1\n", "0 1 1 1 1", "11 93"),
    ("0 1 1 1 1\n", "0 1 1 1 1\n\n", "11 94"),
    ("0 1 1 1 1\n", "0 1 1 1 1\n0", "11 94"),
    ("0 1 1 1 1\n", "0 1 1 1 1\n0 2 0 0 0\n", "11 94"),
    ("0 1 1 1 1\n", "0 1 1 1 1\r\n", "11 93"),
    ("places\n", "places\r\n", "11 19"),
    ("places\n3", "places 3", "11 19"),
];

pub fn rows() -> Vec<Row> {
    let mut rows = both_ways();
    rows.extend(edited(TEXT_OF_B, EDITS, read));
    rows.push(note(
        "text: E has three places of one loop place each: below 3 in the second block, below 1 in the third",
    ));
    for (old, new, place) in [("1 1 2\n", "1 1 3\n", 51), ("1 0 1 0", "1 0 1 1", 92)] {
        rows.push(read(&TEXTS[4].1.replacen(old, new, 1), &format!("refused 5 first {place}")));
    }
    rows.push(note("text: it ends early: 11 at its length, unless its last number is out of range or of bad form"));
    for length in [0, 1, 19, 20, 21, 22, 25, 26, 31, 43, 44, 46, 51, 52, 73, 74, 83, 84, 93] {
        rows.push(read(&TEXT_OF_B[..length], &format!("refused 11 first {length}")));
    }
    for (end, refusal) in [("40", "2 first 22"), ("4", "11 first 23"), ("1234", "11 first 22"), ("00", "11 first 22")] {
        rows.push(read(&format!("level scenes places\n3 {end}"), &format!("refused {refusal}")));
    }
    rows.push(read("level scenes places\n1234", "refused 11 first 20"));
    rows.extend(numbers());
    rows
}

/// A text that is refused with room enough.
fn read(text: &str, refused: &str) -> Row {
    let seconds = SECONDS[text.len() % SECONDS.len()];
    row(&format!("read {} 11*9 {seconds}", print(text.as_bytes())), &format!("{refused} | 11*9 {seconds}"))
}

/// Texts read and written: 01's sheets, and sheets whose counts are 1 or 32.
fn both_ways() -> Vec<Row> {
    let mut rows = vec![note("01, the sheet as text: reading and writing A to E")];
    for (at, ((name, text), (packed, length))) in TEXTS.iter().zip(PACKED).enumerate() {
        let (text, seconds) = (text.as_bytes(), SECONDS[at]);
        let read = format!("filled 3 {length} | {packed} {seconds}");
        rows.push(row(&format!("read {name} {length}*9 {seconds}"), &read));
        let written = format!("filled {} | {},2*9", text.len(), print(text));
        rows.push(row(&format!("write 3 {packed} {seconds} {}*9", text.len() + 2), &written));
    }
    rows.push(note("text: s = 32: read; s = 33: 2; 32 places, 32 loop places"));
    for (at, [letters, states, size]) in [[32, 1, 1], [1, 32, 1], [1, 1, 32], [11, 12, 2]].into_iter().enumerate() {
        let (sheet, text, seconds) =
            (plain(letters, states, size, 1), plain_text(letters, states, size), SECONDS[at + 3]);
        let length = 2 + states + states * letters + states * size * (letters + 1);
        rows.push(row(
            &format!("write 3 {sheet} {seconds} {}*9", text.len()),
            &format!("filled {} | {}", text.len(), print(text.as_bytes())),
        ));
        let read = format!("filled 3 {length} | {sheet} {seconds}");
        rows.push(row(&format!("read {} {length}*9 {seconds}", print(text.as_bytes())), &read));
    }
    rows.push(read(&plain_text(33, 1, 1), "refused 2 first 22"));
    rows.push(read(&plain_text(1, 33, 1), "refused 3 first 24"));
    rows.push(read(&plain_text(1, 1, 33), "refused 4 first 43"));
    rows
}

/// The text of a sheet whose next states are all 0 and whose marks are all 1.
pub fn plain_text(letters: usize, states: usize, size: usize) -> String {
    let names: String = (0..letters).map(|letter| format!(" s{letter}")).collect();
    let zeros = " 0".repeat(letters);
    let mut text = format!("level scenes places\n3 {letters} {states}\nplace loops{names}\n");
    for state in 0..states {
        text += &format!("{state} {size}{zeros}\n");
    }
    text += &format!("place loop mark{names}\n");
    for state in 0..states {
        for progress_state in 0..size {
            text += &format!("{state} {progress_state} 1{zeros}\n");
        }
    }
    text
}

fn numbers() -> Vec<Row> {
    table(&[
        ("numbers: digits are the bytes 48 to 57, at most three, with no needless zero", ""),
        ("number 48 0", "number 0 1"),
        ("number 49,50,51 0", "number 123 3"),
        ("number 57,57,57,32 0", "number 999 3"),
        ("number 120,52,50,10 1", "number 42 3"),
        ("number 49,177 0", "number 1 1"),
        ("number 49,50,51,52 0", "refused 11 first 0"),
        ("number 32,49,48,48,48 1", "refused 11 first 1"),
        ("number 48,48 0", "refused 11 first 0"),
        ("number 32,48,49 1", "refused 11 first 1"),
        ("number 120 0", "refused 11 first 0"),
        ("number 47,58,47 1", "refused 11 first 1"),
        ("number 300000*49 0", "refused 11 first 0"),
        ("numbers: a place within a run of digits; places at the text's end and past it", ""),
        ("number 49,50,51,52 1", "number 234 4"),
        ("number 48,48 1", "number 0 2"),
        ("number 49,50 2", "refused 11 first 2"),
        ("number 49,50 3", "refused 11 first 2"),
        ("number 49,50 18446744073709551615", "refused 11 first 2"),
        ("number - 18446744073709551615", "refused 11 first 0"),
    ])
}
