//! How long a show lasts (F-6): running sheets, every refusal alone, and which of two goes first.

use super::timed_writing::filled;
use super::{note, row, table, Row};

/// The opening 0 2 lasts 7 + 45 = 52 seconds, a turn of the loop 1 1 0 lasts 120 + 120 + 7 = 247; 19 + 12 + 13 + 11 + 11 + 9 + 13 + 7 = 95
/// bytes.
const SMALL: &str =
    "part scene seconds\nopening 0 7\nopening 2 45\nloop 1 120\nloop 1 120\nloop 0 7\nopening loop\n52 247\n";
const SMALL_SHOW: &str = "0,2 2*1,0 7,120,45";

pub fn rows() -> Vec<Row> {
    let mut rows = written();
    rows.extend(cells());
    rows.extend(refused());
    rows.extend(bad_cells());
    rows.extend(orders());
    rows.extend(longest());
    rows.extend(no_calls());
    rows
}

/// A running sheet of one block and its totals, with just enough room.
fn sheet(show: &str, lines: &str, totals: &str) -> Row {
    let text = format!("part scene seconds\n{lines}opening loop\n{totals}\n");
    row(&format!("durations {show} {}*9", text.len()), &filled(&text, ""))
}

fn written() -> Vec<Row> {
    let mut rows =
        vec![note("F-6, how long a show lasts: just enough room, more, whose cells stay, one cell too few, none")];
    rows.push(row(&format!("durations {SMALL_SHOW} 95*9"), &filled(SMALL, "")));
    rows.push(row(&format!("durations {SMALL_SHOW} 96*9"), &filled(SMALL, ",9")));
    rows.push(row(&format!("durations {SMALL_SHOW} 95*8,11,12,7*9"), &filled(SMALL, ",11,12,7*9")));
    for out in ["94*9", "19*9", "9", "-"] {
        rows.push(row(&format!("durations {SMALL_SHOW} {out}"), &format!("refused 21 out 95 | {out}")));
    }
    rows.push(note("durations: no opening, whose total is 0; 57 bytes with an opening of one scene"));
    rows.push(sheet("- 0 7", "loop 0 7\n", "0 7"));
    rows.push(sheet("0 0 7", "opening 0 7\nloop 0 7\n", "7 7"));
    rows.push(row("durations 0 0 7 56*9", "refused 21 out 57 | 56*9"));
    rows.push(note("durations: one digit, two and three; a total has one digit more than the seconds"));
    rows.push(sheet("0 1 1,9", "opening 0 1\nloop 1 9\n", "1 9"));
    rows.push(sheet("0 1 10,99", "opening 0 10\nloop 1 99\n", "10 99"));
    rows.push(sheet("0 1 100,999", "opening 0 100\nloop 1 999\n", "100 999"));
    rows.push(sheet("2*0 1,0 5,999", "opening 0 5\nopening 0 5\nloop 1 999\nloop 0 5\n", "10 1004"));
    rows.push(sheet("0,1 1,0 99,1", "opening 0 99\nopening 1 1\nloop 1 1\nloop 0 99\n", "100 100"));
    rows.push(sheet("0,1 2*1 255,1", "opening 0 255\nopening 1 1\nloop 1 1\nloop 1 1\n", "256 2"));
    rows.push(note("durations: the lines are in the show's order, a scene again and again has a line each time"));
    rows.push(sheet(
        "2,1,0 0,1,2 3,4,5",
        "opening 2 5\nopening 1 4\nopening 0 3\nloop 0 3\nloop 1 4\nloop 2 5\n",
        "12 12",
    ));
    rows.push(sheet("9*0 10*0 1", &("opening 0 1\n".repeat(9) + &"loop 0 1\n".repeat(10)), "9 10"));
    // 66 x 999 = 65,934 and 66 x 993 = 65,538 do not fit in 16 bits.
    rows.push(note("durations: totals above 65,535"));
    rows.push(sheet("66*0 66*1 999,993", &("opening 0 999\n".repeat(66) + &"loop 1 993\n".repeat(66)), "65934 65538"));
    rows
}

/// How many cells there are.
fn cells() -> Vec<Row> {
    let mut rows = vec![note("durations: cells of scenes that are not shown change nothing")];
    rows.push(sheet("0 0 7,999,1", "opening 0 7\nloop 0 7\n", "7 7"));
    rows.push(sheet("31 9 10*1,22*2", "opening 31 2\nloop 9 1\n", "2 1"));
    rows.push(note("durations: 31, 32 and 33 cells with scene 31, and 33 with scene 32"));
    rows.push(row("durations 31 31 31*5 70*9", "refused 9 opening 0 | 70*9"));
    rows.push(sheet("31 31 32*5", "opening 31 5\nloop 31 5\n", "5 5"));
    rows.push(sheet("31 32 32*5,6", "opening 31 5\nloop 32 6\n", "5 6"));
    rows.push(note("durations: 255, 256, 257 and 65,536 cells with scene 255; from 256 on no byte is unknown"));
    rows.push(row("durations 255 255 255*5 70*9", "refused 9 opening 0 | 70*9"));
    rows.push(row("durations 254 254,255 255*5 70*9", "refused 9 loop 1 | 70*9"));
    for cells in ["256*5", "257*5", "300*5", "65536*5"] {
        rows.push(sheet(&format!("255 255,0 {cells}"), "opening 255 5\nloop 255 5\nloop 0 5\n", "5 10"));
    }
    rows.push(sheet("255 0 255*5,6,7", "opening 255 6\nloop 0 5\n", "6 5"));
    rows.extend(table(&[
        ("durations: no cells, so that every scene is unknown; without an opening the loop is judged", ""),
        ("durations - - - 70*9", "refused 8 loop 0 | 70*9"),
        ("durations - 0 - 70*9", "refused 9 loop 0 | 70*9"),
        ("durations - 255,0 - 70*9", "refused 9 loop 0 | 70*9"),
        ("durations 0 - - 70*9", "refused 9 opening 0 | 70*9"),
        ("durations 0 0 - -", "refused 9 opening 0 | -"),
        ("durations 65537*0 0 - -", "refused 9 opening 0 | -"),
        ("durations - 65537*0 - -", "refused 9 loop 0 | -"),
    ]));
    rows
}

fn refused() -> Vec<Row> {
    table(&[
        ("durations: 9 opening, 8 and 9 loop; the first scene that has no cell", ""),
        ("durations 0,1 0 7 70*9", "refused 9 opening 1 | 70*9"),
        ("durations 0,1,2,1 0 7,8 70*9", "refused 9 opening 2 | 70*9"),
        ("durations 255 0 7 70*9", "refused 9 opening 0 | 70*9"),
        ("durations 1000*0,1,255 0 7 70*9", "refused 9 opening 1000 | 70*9"),
        ("durations 0 - 7 70*9", "refused 8 loop 0 | 70*9"),
        ("durations - - 7 70*9", "refused 8 loop 0 | 70*9"),
        ("durations 0 0,1 7 70*9", "refused 9 loop 1 | 70*9"),
        ("durations - 255 7 70*9", "refused 9 loop 0 | 70*9"),
        ("durations 0 65536*0,1 7 70*9", "refused 9 loop 65536 | 70*9"),
    ])
}

/// 14 at the first bad cell of all, whatever the show has.
fn bad_cells() -> Vec<Row> {
    let mut rows =
        vec![note("durations: 14 at the first cell that is 0 or above 999: the first, one between, the last")];
    for bad in [0, 1000, 1001, 1024, 32_768, 65_535] {
        for (cells, place) in [(format!("{bad},7,7"), 0), (format!("7,{bad},7"), 1), (format!("7,7,{bad}"), 2)] {
            let stated = format!("refused 14 seconds {place} | 95*9");
            rows.push(row(&format!("durations 0,1,2 0 {cells} 95*9"), &stated));
            rows.push(row(&format!("durations - 0 {cells} 95*9"), &stated));
        }
    }
    rows.extend(table(&[
        ("durations: the first of several bad cells", ""),
        ("durations - 0 0,1000,0 95*9", "refused 14 seconds 0 | 95*9"),
        ("durations - 0 7,1000,0 95*9", "refused 14 seconds 1 | 95*9"),
        ("durations - 0 7,2*0 95*9", "refused 14 seconds 1 | 95*9"),
        ("durations - 0 999,1,1000 95*9", "refused 14 seconds 2 | 95*9"),
        ("durations: cells that no byte can name", ""),
        ("durations - 0 255*7,0 95*9", "refused 14 seconds 255 | 95*9"),
        ("durations - 0 256*7,0 95*9", "refused 14 seconds 256 | 95*9"),
        ("durations - 0 256*7,1000,0 95*9", "refused 14 seconds 256 | 95*9"),
        ("durations - 0 65535*7,65535 95*9", "refused 14 seconds 65535 | 95*9"),
        ("durations - 0 65536*7,0 95*9", "refused 14 seconds 65536 | 95*9"),
    ]));
    rows
}

/// Each has the two faults that it names, and those that come later.
fn orders() -> Vec<Row> {
    table(&[
        ("durations: 9 opening before 8, 9 loop, 14, 26 and 21", ""),
        ("durations 1 - 7 70*9", "refused 9 opening 0 | 70*9"),
        ("durations 0,1 1 7 70*9", "refused 9 opening 1 | 70*9"),
        ("durations 1 0 0 70*9", "refused 9 opening 0 | 70*9"),
        ("durations 65536*0,1 0 7 70*9", "refused 9 opening 65536 | 70*9"),
        ("durations 1 65537*0 7 70*9", "refused 9 opening 0 | 70*9"),
        ("durations 1 0 7 -", "refused 9 opening 0 | -"),
        ("durations 1 - 0 -", "refused 9 opening 0 | -"),
        ("durations: 8 before 14, 26 and 21", ""),
        ("durations 0 - 0 70*9", "refused 8 loop 0 | 70*9"),
        ("durations 65537*0 - 7 70*9", "refused 8 loop 0 | 70*9"),
        ("durations 0 - 7 -", "refused 8 loop 0 | -"),
        ("durations 65537*0 - 0 -", "refused 8 loop 0 | -"),
        ("durations: 9 loop before 14, 26 and 21", ""),
        ("durations 0 1 0 70*9", "refused 9 loop 0 | 70*9"),
        ("durations 65537*0 0,1 7 70*9", "refused 9 loop 1 | 70*9"),
        ("durations 0 70000*0,1 7 70*9", "refused 9 loop 70000 | 70*9"),
        ("durations 0 1 7 -", "refused 9 loop 0 | -"),
        ("durations: 14 before 26 and 21", ""),
        ("durations 65537*0 0 7,1000 70*9", "refused 14 seconds 1 | 70*9"),
        ("durations 0 65537*0 0 70*9", "refused 14 seconds 0 | 70*9"),
        ("durations 0 0 7,0 -", "refused 14 seconds 1 | -"),
        ("durations 65537*0 65537*0 7,0 -", "refused 14 seconds 1 | -"),
        ("durations: 26 opening before 26 loop, and both before 21", ""),
        ("durations 65537*0 65537*0 7 70*9", "refused 26 opening 65536 | 70*9"),
        ("durations 65537*0 0 7 -", "refused 26 opening 65536 | -"),
        ("durations 0 65537*0 7 -", "refused 26 loop 65536 | -"),
        ("durations 65537*0 65537*0 7 -", "refused 26 opening 65536 | -"),
    ])
}

/// The room needed tells the lines and the digits of the totals.
fn longest() -> Vec<Row> {
    table(&[
        ("durations: 26 for more than 65,536 scenes of a part", ""),
        ("durations 65537*0 0 1 70*9", "refused 26 opening 65536 | 70*9"),
        ("durations 0 65537*0 1 70*9", "refused 26 loop 65536 | 70*9"),
        ("durations 65536*0 65537*0 1 70*9", "refused 26 loop 65536 | 70*9"),
        ("durations 65537*0 65536*0 1 70*9", "refused 26 opening 65536 | 70*9"),
        ("durations 1000000*0 0 1 70*9", "refused 26 opening 65536 | 70*9"),
        ("durations - 131072*0 1 70*9", "refused 26 loop 65536 | 70*9"),
        // 19 + 65,536 x 12 + 9 + 13 + 8, the last line being `65536 1`; the loop's lines have 9 bytes.
        ("durations: 65,536 scenes of either part, 65,536 and 65,470,464 seconds", ""),
        ("durations 65536*0 0 1 70*9", "refused 21 out 786481 | 70*9"),
        // 19 + 12 + 65,536 x 9 + 13 + 8.
        ("durations 0 65536*0 1 70*9", "refused 21 out 589876 | 70*9"),
        // 19 + 65,536 x 9 + 13 + 8, with the opening's total 0.
        ("durations - 65536*0 1 70*9", "refused 21 out 589864 | 70*9"),
        // 19 + 65,536 x (14 + 11) + 13 + 18, the last line being `65470464 65470464`.
        ("durations 65536*0 65536*0 999 70*9", "refused 21 out 1638450 | 70*9"),
        ("durations 65535*0 65536*0 999 -", "refused 21 out 1638436 | -"),
    ])
}

fn no_calls() -> Vec<Row> {
    const LINES: [&str; 12] = [
        "durations",
        "durations -",
        "durations - 0",
        "durations - 0 7",
        "durations - 0 7 - -",
        "durations 256 0 7 -",
        "durations - 256 7 -",
        "durations - 0 65536 -",
        "durations - 0 7 256",
        "durations  - 0 7 -",
        "duration - 0 7 -",
        "Durations - 0 7 -",
    ];
    let mut rows = vec![note("durations: lines that are no call")];
    rows.extend(table(&LINES.map(|line| (line, "no call"))));
    rows
}
