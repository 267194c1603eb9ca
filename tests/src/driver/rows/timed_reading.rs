//! Level four (F-5), reading: texts that are read, at both levels, and the two lent slices. What is refused is in `timed_edits`.

use super::texts::{plain_text, PACKED, TEXTS};
use super::{note, plain, row, table, Row};
use crate::driver::line::print;
use crate::driver::rows::FOUR_OF_B;

/// A sheet's text with its seconds, from that of level three.
pub fn timed(text: &str, seconds: &[u16]) -> String {
    let [names, row, rest]: [&str; 3] = text.splitn(3, '\n').collect::<Vec<_>>().try_into().expect("there are blocks");
    let rows: String = seconds.iter().enumerate().map(|(scene, cell)| format!("{scene} {cell}\n")).collect();
    format!("{names}\n{}\nscene seconds\n{rows}{rest}", row.replacen('3', "4", 1))
}

/// Seconds of so many scenes: 1, 999, and numbers of all lengths.
pub fn some_seconds(scenes: usize) -> Vec<u16> {
    [1, 999, 10, 9, 100, 99, 256, 255, 512, 998, 2].into_iter().cycle().take(scenes).collect()
}

pub fn rows() -> Vec<Row> {
    let mut rows = slices();
    rows.extend(seconds());
    rows.extend(sheets());
    rows.extend(refused());
    rows
}

/// The slices, just long enough and longer, at both levels.
fn slices() -> Vec<Row> {
    table(&[
        ("F-5, level four: sheet B with the seconds 7 and 120; cells past these stay as they were, whatever they hold", ""),
        ("read B4.txt 11*9 2*8", "filled 4 11 | 2,1,2,2*0,1,0,2*1,0,1 7,120"),
        ("read B4.txt 12*9 3*8", "filled 4 11 | 2,1,2,2*0,1,0,2*1,0,1,9 7,120,8"),
        ("read B4.txt 11*9 3*0", "filled 4 11 | 2,1,2,2*0,1,0,2*1,0,1 7,120,0"),
        ("read B4.txt 300*9 2*8,0,1000,65535", "filled 4 11 | 2,1,2,2*0,1,0,2*1,0,1,289*9 7,120,0,1000,65535"),
        ("read B4.txt 11*9 2*8,2*120", "filled 4 11 | 2,1,2,2*0,1,0,2*1,0,1 7,3*120"),
        ("read B4.txt 11*9 65536*65535", "filled 4 11 | 2,1,2,2*0,1,0,2*1,0,1 7,120,65534*65535"),
        ("level three: the seconds slice is neither judged nor changed, however short, whatever it holds", ""),
        ("read B.txt 11*9 -", "filled 3 11 | 2,1,2,2*0,1,0,2*1,0,1 -"),
        ("read B.txt 11*9 0", "filled 3 11 | 2,1,2,2*0,1,0,2*1,0,1 0"),
        ("read B.txt 11*9 2*8", "filled 3 11 | 2,1,2,2*0,1,0,2*1,0,1 2*8"),
        ("read B.txt 11*9 0,1000,65535", "filled 3 11 | 2,1,2,2*0,1,0,2*1,0,1 0,1000,65535"),
        ("read B.txt 12*9 40*8", "filled 3 11 | 2,1,2,2*0,1,0,2*1,0,1,9 40*8"),
        ("level four: 21 for the out slice, then for the seconds, at s; nothing is changed", ""),
        ("read B4.txt 10*9 2*8", "refused 21 out 11 | 10*9 2*8"),
        ("read B4.txt 10*9 3*8", "refused 21 out 11 | 10*9 3*8"),
        ("read B4.txt - 2*8", "refused 21 out 11 | - 2*8"),
        ("read B4.txt 10*9 8", "refused 21 out 11 | 10*9 8"),
        ("read B4.txt 10*9 -", "refused 21 out 11 | 10*9 -"),
        ("read B4.txt - -", "refused 21 out 11 | - -"),
        ("read B4.txt 11*9 8", "refused 21 seconds 2 | 11*9 8"),
        ("read B4.txt 11*9 0", "refused 21 seconds 2 | 11*9 0"),
        ("read B4.txt 11*9 -", "refused 21 seconds 2 | 11*9 -"),
        ("read B4.txt 12*9 65535", "refused 21 seconds 2 | 12*9 65535"),
        ("read B4.txt 300*9 8", "refused 21 seconds 2 | 300*9 8"),
        ("level three: 21 for the out slice alone", ""),
        ("read B.txt 10*9 -", "refused 21 out 11 | 10*9 -"),
        ("read B.txt 10*9 2*8", "refused 21 out 11 | 10*9 2*8"),
        ("read B.txt - 65535", "refused 21 out 11 | - 65535"),
    ])
}

/// Sheet B with other seconds.
fn seconds() -> Vec<Row> {
    let mut rows = vec![note("level four: seconds from 1 to 999")];
    for [first, last] in [[1, 999], [999, 1], [1, 1], [999, 999], [10, 100], [255, 256], [512, 768], [9, 99], [90, 900]]
    {
        let text = FOUR_OF_B.replace("0 7\n1 120\n", &format!("0 {first}\n1 {last}\n"));
        let seconds = print::<u16>(&[first, last]);
        rows.push(read(&text, "11*9 2*8", &format!("filled 4 11 | {} {seconds}", PACKED[1].0)));
    }
    rows
}

/// 01's other sheets, and sheets whose counts are 1 or 32.
fn sheets() -> Vec<Row> {
    let mut rows = vec![note("level four: A to E; C, D and E have one scene")];
    for ((_, text), ((packed, length), scenes)) in TEXTS.iter().zip(PACKED.iter().zip([2, 2, 1, 1, 1])) {
        let seconds = some_seconds(scenes + 1);
        let filled = print(&[&seconds[1..], &[8]].concat());
        let text = timed(text, &seconds[1..]);
        rows.push(read(
            &text,
            &format!("{length}*9 {}*8", scenes + 1),
            &format!("filled 4 {length} | {packed} {filled}"),
        ));
        let short = if scenes == 1 { "-" } else { "8" };
        rows.push(read(
            &text,
            &format!("{length}*9 {short}"),
            &format!("refused 21 seconds {scenes} | {length}*9 {short}"),
        ));
    }
    rows.push(note("level four: 32 scenes, and 11; the seconds just enough, one more, one too few"));
    for [scenes, states, size] in [[32, 1, 1], [1, 32, 1], [1, 1, 32], [11, 12, 2], [32, 2, 3]] {
        let (sheet, seconds) = (plain(scenes, states, size, 1), some_seconds(scenes));
        let text = timed(&plain_text(scenes, states, size), &seconds);
        let length = 2 + states + states * scenes + states * size * (scenes + 1);
        let filled = format!("filled 4 {length} | {sheet}");
        rows.push(read(&text, &format!("{length}*9 {scenes}*0"), &format!("{filled} {}", print(&seconds))));
        let more = print(&[&seconds[..], &[1000]].concat());
        rows.push(read(&text, &format!("{length}*9 {}*1000", scenes + 1), &format!("{filled} {more}")));
        let fewer = print(&vec![8u16; scenes - 1]);
        let refused = format!("refused 21 seconds {scenes} | {length}*9 {fewer}");
        rows.push(read(&text, &format!("{length}*9 {fewer}"), &refused));
        let refused = format!("refused 21 out {length} | {}*9 {fewer}", length - 1);
        rows.push(read(&text, &format!("{}*9 {fewer}", length - 1), &refused));
    }
    rows
}

fn read(text: &str, lent: &str, stated: &str) -> Row {
    row(&format!("read {} {lent}", print(text.as_bytes())), stated)
}

/// Every refusal of the text goes before both of the slices.
fn refused() -> Vec<Row> {
    let mut rows = vec![note("level four: the text before the out slice's 21 and the seconds'")];
    for (old, new, refusal) in [
        ("4 2 1", "5 2 1", "10 first 20"),
        ("4 2 1", "3 2 1", "11 first 26"),
        ("4 2 1", "4 33 1", "2 first 22"),
        ("4 2 1", "4 2 0", "3 first 24"),
        ("0 7", "0 0", "14 first 42"),
        ("1 120", "1 0", "14 first 46"),
        ("1 120", "1 1000", "11 first 46"),
        ("1 120", "2 120", "12 first 44"),
        ("0 2 0 0", "0 0 0 0", "4 first 70"),
        ("0 1 1 1 1", "0 1 2 1 1", "6 first 112"),
        ("0 1 1 1 1", "0 1 1 1 2", "5 first 116"),
        ("0 1 1 1 1\n", "0 1 1 1 1", "11 first 117"),
        ("0 1 1 1 1\n", "0 1 1 1 1\n\n", "11 first 118"),
    ] {
        let text = FOUR_OF_B.replacen(old, new, 1);
        for lent in ["- -", "10*9 8", "10*9 2*8", "11*9 8"] {
            rows.push(read(&text, lent, &format!("refused {refusal} | {lent}")));
        }
    }
    rows
}
