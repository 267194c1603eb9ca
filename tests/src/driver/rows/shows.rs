//! The show as text (F-2): texts read and written, their refusals and places, slices that are too short, and lines that are no call.

use super::{edited, note, row, table, Row};
use crate::driver::line::print;

pub const TEN_LINES: &str =
    "part scene\nopening 0\nopening 31\nopening 7\nopening 10\nloop 5\nloop 31\nloop 0\nloop 19\nloop 2\n";
/// Its scenes.
const OPENING: &str = "0,31,7,10";
const LOOP: &str = "5,31,0,19,2";

/// Changes of the text of ten lines.
const EDITS: &[(&str, &str, &str)] = &[
    ("show: 9 for a scene above 31, at its first byte", "", ""),
    ("opening 0", "opening 32", "9 19"),
    ("opening 31", "opening 32", "9 29"),
    ("opening 31", "opening 99", "9 29"),
    ("opening 31", "opening 256", "9 29"),
    ("opening 31", "opening 999", "9 29"),
    ("loop 31", "loop 32", "9 65"),
    ("loop 31", "loop 287", "9 65"),
    ("loop 2\n", "loop 32\n", "9 88"),
    ("loop 2\n", "loop 999\n", "9 88"),
    ("show: a run of bad form is 11 at its first byte, its range unjudged", "", ""),
    ("opening 0", "opening 00", "11 19"),
    ("opening 0", "opening 01", "11 19"),
    ("opening 31", "opening 031", "11 29"),
    ("opening 31", "opening 032", "11 29"),
    ("opening 31", "opening 1000", "11 29"),
    ("opening 31", "opening 18446744073709551647", "11 29"),
    ("loop 5", "loop 00", "11 58"),
    ("loop 5", "loop 01", "11 58"),
    ("loop 2\n", "loop 1000\n", "11 88"),
    ("loop 2\n", "loop 02\n", "11 88"),
    ("show: a good run is judged before the byte after it is looked at", "", ""),
    ("opening 31", "opening 32x", "9 29"),
    ("opening 31", "opening 31x", "11 31"),
    ("opening 31\n", "opening 31 \n", "11 31"),
    ("loop 2\n", "loop 32 \n", "9 88"),
    ("loop 2\n", "loop 2 \n", "11 89"),
    ("loop 2\n", "loop 2 7\n", "11 89"),
    ("show: where a digit is due and there is none", "", ""),
    ("opening 31", "opening x", "11 29"),
    ("opening 31", "opening ", "11 29"),
    ("opening 31", "opening", "11 28"),
    ("opening 31", "opening  31", "11 29"),
    ("opening 31", "opening -1", "11 29"),
    ("opening 31", "opening +1", "11 29"),
    ("loop 5", "loop", "11 57"),
    ("loop 5", "loop \t5", "11 58"),
    ("loop 5", "loop :", "11 58"),
    ("show: names are literals", "", ""),
    ("part", "Part", "11 0"),
    ("part scene", "part  scene", "11 5"),
    ("part scene", "part scenes", "11 10"),
    ("part scene", "part scene ", "11 10"),
    ("part scene", "scene part", "11 0"),
    ("part scene\n", "", "11 0"),
    ("part scene\n", "\npart scene\n", "11 0"),
    ("part scene\n", "part scene\npart scene\n", "11 11"),
    ("opening 0", "Opening 0", "11 11"),
    ("opening 0", "openings 0", "11 18"),
    ("opening 0", "open 0", "11 15"),
    ("opening 0", " opening 0", "11 11"),
    ("opening 0", "0", "11 11"),
    ("opening 0", "out 0", "11 12"),
    ("loop 5", "Loop 5", "11 53"),
    ("loop 5", "loops 5", "11 57"),
    ("loop 5", "lop 5", "11 55"),
    ("loop 0", "lo 0", "11 70"),
    ("show: an opening line after a loop line", "", ""),
    ("loop 31", "opening 31", "11 60"),
    ("loop 31", "o", "11 60"),
    ("loop 2\n", "opening 2\n", "11 83"),
    ("loop 2\n", "loop 2\nopening 2\n", "11 90"),
    ("loop 2\n", "loop 2\nopening 32\n", "11 90"),
    ("show: other line ends, empty lines, more bytes", "", ""),
    ("part scene\n", "part scene\r\n", "11 10"),
    ("part scene\n", "part scene opening 0\n", "11 10"),
    ("opening 0\n", "opening 0\r\n", "11 20"),
    ("opening 0\n", "opening 0\n\n", "11 21"),
    ("opening 0\n", "opening 0opening 0\n", "11 20"),
    ("opening 10\n", "opening 10\n\n", "11 53"),
    ("loop 5\n", "loop 5\r", "11 59"),
    ("loop 2\n", "loop 2\r\n", "11 89"),
    ("loop 2\n", "loop 2", "11 89"),
    ("loop 2\n", "loop 2\n\n", "11 90"),
    ("loop 2\n", "loop 2\n\r\n", "11 90"),
    ("loop 2\n", "loop 2\n ", "11 90"),
    ("loop 2\n", "loop 2\n\0", "11 90"),
    ("loop 2\n", "loop 2\n2", "11 90"),
    ("loop 2\n", "loop 2\nl", "11 91"),
    ("loop 2\n", "loop 2\nwaits ends\n", "11 90"),
    ("loop 2\n", "loop 2\npart scene\nloop 2\n", "11 90"),
    ("show: the smallest place of two faults", "", ""),
    ("opening 31\nopening 7", "opening 32\nopening 07", "9 29"),
    ("opening 31\nopening 7", "opening 031\nopening 32", "11 29"),
    ("opening 31\nopening 7", "opening 33\nopening 32", "9 29"),
];

pub fn rows() -> Vec<Row> {
    let mut rows = both_ways();
    rows.extend(slices());
    rows.extend(edited(TEN_LINES, EDITS, refused));
    rows.extend(ends());
    rows.extend(writing());
    rows.extend(no_calls());
    rows
}

fn read(text: &str, lent: &str, stated: &str) -> Row {
    row(&format!("read-show {} {lent}", print(text.as_bytes())), stated)
}

/// A text that is refused with room enough.
fn refused(text: &str, refusal: &str) -> Row {
    read(text, "6*8 7*9", &format!("{refusal} | 6*8 7*9"))
}

/// The text of scenes that stand in slices as words, read and written with just enough room.
fn one_way_and_back(text: &str, lengths: (usize, usize), opening: &str, turn: &str) -> [Row; 2] {
    let room = |length: usize, cell: usize| if length == 0 { "-".to_string() } else { format!("{length}*{cell}") };
    let (before, turns) = lengths;
    let lent = format!("{} {}", room(before, 8), room(turns, 9));
    let written = format!("filled {} | {}", text.len(), print(text.as_bytes()));
    [
        read(text, &lent, &format!("filled {before} {turns} | {opening} {turn}")),
        row(&format!("write-show {opening} {turn} {}*7", text.len()), &written),
    ]
}

fn both_ways() -> Vec<Row> {
    let mut rows = vec![note("F-2, the show as text: reading and writing ten lines")];
    rows.extend(one_way_and_back(TEN_LINES, (4, 5), OPENING, LOOP));
    rows.push(note(
        "show: the blocks that the program compare prints: A in B; three scenes, then two; opening 31, loop 17",
    ));
    rows.extend(one_way_and_back("part scene\nloop 1\n", (0, 1), "-", "1"));
    let zeros = "part scene\nopening 0\nopening 0\nopening 0\nloop 0\nloop 0\n";
    rows.extend(one_way_and_back(zeros, (3, 2), "3*0", "2*0"));
    rows.extend(one_way_and_back("part scene\nopening 31\nloop 17\n", (1, 1), "31", "17"));
    rows.push(note("show: every scene; 300 lines of either part"));
    let scenes: Vec<u8> = (0..32).collect();
    let all: String = scenes.iter().map(|scene| format!("loop {scene}\n")).collect();
    rows.extend(one_way_and_back(&format!("part scene\n{all}"), (0, 32), "-", &print(&scenes)));
    let many = format!("part scene\n{}loop 8\n", "opening 9\n".repeat(300));
    rows.extend(one_way_and_back(&many, (300, 1), "300*9", "8"));
    let many = format!("part scene\nopening 9\n{}", "loop 8\n".repeat(300));
    rows.extend(one_way_and_back(&many, (1, 300), "9", "300*8"));
    rows
}

fn slices() -> Vec<Row> {
    let mut rows = vec![note("show: slices that are longer, where the cells past the scenes stay as they were")];
    rows.push(read(TEN_LINES, "6*8 7*9", &format!("filled 4 5 | {OPENING},2*8 {LOOP},2*9")));
    rows.push(read(TEN_LINES, "4*8 6*9", &format!("filled 4 5 | {OPENING} {LOOP},9")));
    rows.push(read(TEN_LINES, "1000*8 5*9", &format!("filled 4 5 | {OPENING},996*8 {LOOP}")));
    rows.push(read("part scene\nloop 1\n", "3*8 3*9", "filled 0 1 | 3*8 1,2*9"));
    rows.push(note("show: 21 for the opening, else for the loop; nothing is changed"));
    for (lent, refusal) in [
        ("3*8 5*9", "opening 4"),
        ("- 5*9", "opening 4"),
        ("4*8 4*9", "loop 5"),
        ("4*8 -", "loop 5"),
        ("300*8 4*9", "loop 5"),
        ("3*8 4*9", "opening 4"),
        ("3*8 300*9", "opening 4"),
        ("- -", "opening 4"),
    ] {
        rows.push(read(TEN_LINES, lent, &format!("refused 21 {refusal} | {lent}")));
    }
    rows.push(read("part scene\nloop 1\n", "- -", "refused 21 loop 1 | - -"));
    rows.push(note("show: 21 only where all of the text is in order"));
    for (end, refusal) in [
        ("loop 2\n\n", "11 first 90"),
        ("loop 2", "11 first 89"),
        ("loop 2\r\n", "11 first 89"),
        ("loop 32\n", "9 first 88"),
        ("loop 02\n", "11 first 88"),
        ("opening 2\n", "11 first 83"),
    ] {
        let text = TEN_LINES.replacen("loop 2\n", end, 1);
        rows.push(read(&text, "- -", &format!("refused {refusal} | - -")));
        rows.push(read(&text, "3*8 4*9", &format!("refused {refusal} | 3*8 4*9")));
    }
    rows.push(read(&TEN_LINES[..53], "- -", "refused 8 first 53 | - -"));
    rows
}

/// Texts that end early, or without a loop line.
fn ends() -> Vec<Row> {
    let mut rows =
        vec![note("show: no loop line is 8 at the text's length: the line of names alone, opening lines only")];
    for length in [11, 21, 32, 42, 53] {
        rows.push(refused(&TEN_LINES[..length], &format!("refused 8 first {length}")));
    }
    rows.push(note("show: 11 goes before 8 where the text is empty or ends within a line"));
    for length in [0, 1, 4, 10, 12, 18, 19, 20, 30, 31, 41, 52, 54, 57, 58, 59, 66, 67, 89] {
        rows.push(refused(&TEN_LINES[..length], &format!("refused 11 first {length}")));
    }
    rows.push(note("show: a last number that is out of range or of bad form"));
    for (end, refusal) in [("32", "9 first 19"), ("1234", "11 first 19"), ("00", "11 first 19"), ("31", "11 first 21")]
    {
        rows.push(refused(&format!("part scene\nopening {end}"), &format!("refused {refusal}")));
    }
    rows.push(note("show: another fault goes before 8"));
    rows.push(refused("part scene\nopening 32\n", "refused 9 first 19"));
    rows.push(refused("part scene\nopening 3\n\n", "refused 11 first 21"));
    rows.push(refused("part scene\n\n", "refused 11 first 11"));
    rows.push(refused("\n", "refused 11 first 0"));
    rows
}

fn writing() -> Vec<Row> {
    let whole = format!("filled 90 | {}", print(TEN_LINES.as_bytes()));
    let mut rows = vec![note("writing a show: just enough room, some more, one cell too few, none")];
    rows.push(row(&format!("write-show {OPENING} {LOOP} 92*7"), &format!("{whole},2*7")));
    rows.push(row(&format!("write-show {OPENING} {LOOP} 89*7"), "refused 21 out 90 | 89*7"));
    rows.push(row(&format!("write-show {OPENING} {LOOP} -"), "refused 21 out 90 | -"));
    rows.extend(table(&[
        ("write-show - 1 17*7", "refused 21 out 18 | 17*7"),
        ("write-show 4096*31 4097*0 73745*7", "refused 21 out 73746 | 73745*7"),
        ("write-show 300000*0 300000*31 9*7", "refused 21 out 5400011 | 9*7"),
        ("writing a show: 9 opening, 8, 9 loop", ""),
        ("write-show 0,32 1 99*7", "refused 9 opening 1 | 99*7"),
        ("write-show 255 1 99*7", "refused 9 opening 0 | 99*7"),
        ("write-show 0,31,40,32 1 99*7", "refused 9 opening 2 | 99*7"),
        ("write-show 0 - 99*7", "refused 8 loop 0 | 99*7"),
        ("write-show - - 99*7", "refused 8 loop 0 | 99*7"),
        ("write-show 31 31,31,32 99*7", "refused 9 loop 2 | 99*7"),
        ("write-show - 255,0 99*7", "refused 9 loop 0 | 99*7"),
        ("write-show 1000*31 1000*31,32 99*7", "refused 9 loop 1000 | 99*7"),
        ("writing a show: opening 9, loop 8, loop 9, then 21", ""),
        ("write-show 0,32 - -", "refused 9 opening 1 | -"),
        ("write-show 32 32 -", "refused 9 opening 0 | -"),
        ("write-show 0 - -", "refused 8 loop 0 | -"),
        ("write-show 0 0,32 -", "refused 9 loop 1 | -"),
    ]));
    rows
}

fn no_calls() -> Vec<Row> {
    const LINES: [&str; 13] = [
        "read-show",
        "read-show -",
        "read-show - -",
        "read-show - - - -",
        "read-show - - 256",
        "read-shows - - -",
        "read show - - -",
        "read_show - - -",
        "write-show",
        "write-show - 1",
        "write-show - 1 - -",
        "write-show - 256 -",
        "Write-show - 1 -",
    ];
    let mut rows = vec![note("show: lines that are no call")];
    rows.extend(table(&LINES.map(|line| (line, "no call"))));
    rows
}
