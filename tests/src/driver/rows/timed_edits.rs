//! Level four (F-5), reading: changes of sheet B's text and where each is refused, texts that end early.

use super::{edited, note, row, Row};
use crate::driver::line::print;

/// Sheet B with the seconds 7 and 120. Places: the level 20, the block's names 26, its rows 40 and 44, the seconds 42 and 46, the second
/// block 50 and its row 68, the third block 76 and its rows 98 and 108; 118 bytes.
pub const FOUR_OF_B: &str = "level scenes places\n4 2 1\nscene seconds\n0 7\n1 120\nplace loops s0 s1\n0 2 0 0\n\
    place loop mark s0 s1\n0 0 0 1 0\n0 1 1 1 1\n";

const LEVELS: &[(&str, &str, &str)] = &[
    ("level four, text: 10 for a level that is neither 3 nor 4", "", ""),
    ("4 2 1", "0 2 1", "10 20"),
    ("4 2 1", "1 2 1", "10 20"),
    ("4 2 1", "2 2 1", "10 20"),
    ("4 2 1", "5 2 1", "10 20"),
    ("4 2 1", "7 2 1", "10 20"),
    ("4 2 1", "34 2 1", "10 20"),
    ("4 2 1", "43 2 1", "10 20"),
    ("4 2 1", "259 2 1", "10 20"),
    ("4 2 1", "260 2 1", "10 20"),
    ("4 2 1", "999 2 1", "10 20"),
    ("4 2 1", "5x2 1", "10 20"),
    ("4 2 1", "4x2 1", "11 21"),
    ("4 2 1", "04 2 1", "11 20"),
    ("4 2 1", "4444 2 1", "11 20"),
    ("4 2 1", "x 2 1", "11 20"),
    ("level three with the block of seconds, level four without it, in another place, or twice", "", ""),
    ("4 2 1", "3 2 1", "11 26"),
    ("scene seconds\n0 7\n1 120\n", "", "11 26"),
    (
        "scene seconds\n0 7\n1 120\nplace loops s0 s1\n0 2 0 0\n",
        "place loops s0 s1\n0 2 0 0\nscene seconds\n0 7\n1 120\n",
        "11 26",
    ),
    (
        "level scenes places\n4 2 1\nscene seconds\n0 7\n1 120\n",
        "scene seconds\n0 7\n1 120\nlevel scenes places\n4 2 1\n",
        "11 0",
    ),
    ("1 120\n", "1 120\nscene seconds\n0 7\n1 120\n", "11 50"),
    ("0 1 1 1 1\n", "0 1 1 1 1\nscene seconds\n0 7\n1 120\n", "11 118"),
    ("level four, text: its names are literals", "", ""),
    ("scene seconds", "Scene seconds", "11 26"),
    ("scene seconds", "scenes seconds", "11 31"),
    ("scene seconds", "scene second", "11 38"),
    ("scene seconds", "scene secondss", "11 39"),
    ("scene seconds", "seconds scene", "11 27"),
    ("scene seconds", "scene  seconds", "11 32"),
    ("scene seconds", "scene\tseconds", "11 31"),
    ("scene seconds", "scene", "11 31"),
    ("scene seconds\n", "scene seconds \n", "11 39"),
    ("scene seconds\n", "scene seconds\r\n", "11 39"),
    ("scene seconds\n", "scene seconds\n\n", "11 40"),
    ("scene seconds\n", "scene seconds", "11 39"),
    ("scene seconds\n", "", "11 26"),
    ("level four, text: the counts of the first block, and what they are for this one", "", ""),
    ("4 2 1", "4 0 1", "2 22"),
    ("4 2 1", "4 33 1", "2 22"),
    ("4 2 1", "4 2 0", "3 24"),
    ("4 2 1", "4 2 33", "3 24"),
    ("4 2 1", "4 1 1", "11 44"),
    ("4 2 1", "4 3 1", "11 50"),
];

const ROWS: &[(&str, &str, &str)] = &[
    ("level four, text: 14 for seconds 0, before the byte after it is looked at", "", ""),
    ("0 7", "0 0", "14 42"),
    ("1 120", "1 0", "14 46"),
    ("0 7\n1 120", "0 0\n1 0", "14 42"),
    ("0 7", "0 0x", "14 42"),
    ("0 7\n", "0 0 7\n", "14 42"),
    ("1 120\n", "1 0\r\n", "14 46"),
    ("level four, text: seconds of bad form are 11, 1000 too", "", ""),
    ("0 7", "0 1000", "11 42"),
    ("1 120", "1 1000", "11 46"),
    ("1 120", "1 1200", "11 46"),
    ("0 7", "0 00", "11 42"),
    ("0 7", "0 000", "11 42"),
    ("0 7", "0 0000", "11 42"),
    ("0 7", "0 07", "11 42"),
    ("1 120", "1 012", "11 46"),
    ("0 7", "0 65543", "11 42"),
    ("0 7", "0 4294967303", "11 42"),
    ("0 7", "0 18446744073709551623", "11 42"),
    ("0 7", "0 ", "11 42"),
    ("0 7", "0  7", "11 42"),
    ("0 7", "0 -7", "11 42"),
    ("0 7", "0 +7", "11 42"),
    ("0 7", "0 x", "11 42"),
    ("0 7", "0 7x", "11 43"),
    ("0 7", "0 7.5", "11 43"),
    ("level four, text: 12 for a scene out of turn, before the byte after it is looked at", "", ""),
    ("0 7", "1 7", "12 40"),
    ("1 120", "0 120", "12 44"),
    ("1 120", "2 120", "12 44"),
    ("0 7\n1 120", "1 120\n0 7", "12 40"),
    ("0 7", "2 7", "12 40"),
    ("0 7", "32 7", "12 40"),
    ("0 7", "999 7", "12 40"),
    ("1 120", "257 120", "12 44"),
    ("1 120", "2x120", "12 44"),
    ("0 7\n", "7\n", "12 40"),
    ("0 7\n", "", "12 40"),
    ("0 7\n", "0 7\n0 7\n", "12 44"),
    ("level four, text: a scene of bad form, or none", "", ""),
    ("0 7", "00 7", "11 40"),
    ("1 120", "01 120", "11 44"),
    ("0 7", "1234 7", "11 40"),
    ("1 120", "x 120", "11 44"),
    ("1 120", " 120", "11 44"),
    ("1 120", "-1 120", "11 44"),
    ("1 120", "s1 120", "11 44"),
    ("1 120", "1x120", "11 45"),
    ("1 120", "1,120", "11 45"),
    ("level four, text: rows that are missing or too many, other line ends", "", ""),
    ("1 120\n", "", "11 44"),
    ("0 7\n1 120\n", "", "11 40"),
    ("1 120\n", "1 120\n2 5\n", "11 50"),
    ("1 120\n", "1 120\n1 120\n", "11 50"),
    ("1 120\n", "1 120\n\n", "11 50"),
    ("0 7\n", "0 7\n\n", "11 44"),
    ("0 7\n", "0 7 \n", "11 43"),
    ("0 7\n", "0 7 5\n", "11 43"),
    ("0 7\n", "0\n", "11 41"),
    ("0 7\n", "0 7\r\n", "11 43"),
    ("0 7\n", "0 7\r", "11 43"),
    ("1 120\n", "1 120\r\n", "11 49"),
    ("0 7\n", "0 7 ", "11 43"),
    ("1 120\n", "1 120 ", "11 49"),
];

const OTHERS: &[(&str, &str, &str)] = &[
    ("level four, text: the second and the third block, 24 bytes further on than at level three", "", ""),
    ("place loops", "Place loops", "11 50"),
    ("0 2 0 0", "1 2 0 0", "12 68"),
    ("0 2 0 0", "0 0 0 0", "4 70"),
    ("0 2 0 0", "0 33 0 0", "4 70"),
    ("0 2 0 0", "0 2 1 0", "5 72"),
    ("0 2 0 0", "0 2 0 1", "5 74"),
    ("0 2 0 0\n", "0 2 0\n", "11 73"),
    ("0 2 0 0\n", "", "11 68"),
    ("loop mark", "loop marks", "11 91"),
    ("0 0 0 1 0", "0 0 2 1 0", "6 102"),
    ("0 0 0 1 0", "0 0 0 2 0", "5 104"),
    ("0 0 0 1 0", "0 1 0 1 0", "12 100"),
    ("0 1 1 1 1", "1 1 1 1 1", "12 108"),
    ("0 1 1 1 1", "0 1 1 1 2", "5 116"),
    ("0 1 1 1 1\n", "0 1 1 1 1", "11 117"),
    ("0 1 1 1 1\n", "0 1 1 1 1\r\n", "11 117"),
    ("0 1 1 1 1\n", "0 1 1 1 1\n\n", "11 118"),
    ("0 1 1 1 1\n", "0 1 1 1 1\n0", "11 118"),
    ("level four, text: of two faults the one at the smaller place", "", ""),
    ("4 2 1\nscene seconds\n0 7", "5 2 1\nscene seconds\n0 0", "10 20"),
    ("4 2 1\nscene seconds\n0 7", "4 33 1\nscene seconds\n0 0", "2 22"),
    ("4 2 1\nscene seconds\n0 7", "4 2 33\nscene seconds\n0 0", "3 24"),
    ("scene seconds\n0 7", "scene second\n0 0", "11 38"),
    ("0 7\n1 120", "0 0\n0 120", "14 42"),
    ("0 7\n1 120", "1 0\n1 120", "12 40"),
    ("0 7\n1 120", "0 7\n0 0", "12 44"),
    ("0 7\n1 120", "0 7x\n1 0", "11 43"),
    ("0 7\n1 120", "0 0\n1 1000", "14 42"),
    ("0 7\n1 120", "0 1000\n1 0", "11 42"),
    ("1 120\nplace", "1 0\nPlace", "14 46"),
    ("1 120\nplace loops s0 s1\n0 2 0 0", "1 0\nplace loops s0 s1\n1 0 9 9", "14 46"),
    ("1 120\nplace loops s0 s1\n0 2 0 0", "1 0", "14 46"),
];

pub fn rows() -> Vec<Row> {
    let mut rows = Vec::new();
    for edits in [LEVELS, ROWS, OTHERS] {
        rows.extend(edited(FOUR_OF_B, edits, refused));
    }
    rows.push(note("level four, text: carriage returns everywhere"));
    rows.push(refused(&FOUR_OF_B.replace('\n', "\r\n"), "refused 11 first 19"));
    rows.extend(ends());
    rows
}

/// A text that is refused with room enough.
fn refused(text: &str, refused: &str) -> Row {
    row(&format!("read {} 11*9 2*8", print(text.as_bytes())), &format!("{refused} | 11*9 2*8"))
}

fn ends() -> Vec<Row> {
    let mut rows = vec![note("level four, text: it ends early: 11 at its length")];
    for length in (0..4).chain(19..=50).chain([66, 67, 68, 69, 75, 76, 97, 98, 107, 108, 116, 117]) {
        rows.push(refused(&FOUR_OF_B[..length], &format!("refused 11 first {length}")));
    }
    rows.push(note("level four, text: it ends with a number that is out of range, out of turn or of bad form"));
    let names = &FOUR_OF_B[..40];
    for (end, refusal) in [
        ("0 0", "14 first 42"),
        ("0 7\n1 0", "14 first 46"),
        ("1", "12 first 40"),
        ("0 7\n0", "12 first 44"),
        ("0 7\n12", "12 first 44"),
        ("0 1000", "11 first 42"),
        ("0 00", "11 first 42"),
        ("0 999", "11 first 45"),
        ("0 7\n01", "11 first 44"),
    ] {
        rows.push(refused(&format!("{names}{end}"), &format!("refused {refusal}")));
    }
    for (end, refusal) in [("5", "10 first 20"), ("44", "10 first 20"), ("4444", "11 first 20"), ("4 33", "2 first 22")]
    {
        rows.push(refused(&format!("level scenes places\n{end}"), &format!("refused {refusal}")));
    }
    rows
}
