//! Cases that the papers give, or whose answers were worked out by hand from them, with the numbers that the answer must hold.

use crate::boolean::complement;
use crate::case::Case;

/// The sheets of 01.
pub const A: &[u8] = &[2, 1, 1, 0, 0, 0, 0, 1];
pub const B: &[u8] = &[2, 1, 2, 0, 0, 1, 0, 1, 1, 0, 1];
pub const C: &[u8] = &[1, 1, 2, 0, 1, 0, 1, 0];
pub const D: &[u8] = &[1, 2, 1, 1, 1, 0, 0, 1, 0, 1];
pub const E: &[u8] = &[1, 3, 1, 1, 1, 1, 2, 1, 0, 0, 0, 1, 0, 0];

/// One scene, three places one after the other, of which the last stays. Its loop automaton goes 0, 2, 1, 0 and marks 1; that of place 0
/// goes 0, 1, 2, 0.
pub const LEFT: &[u8] = &[1, 3, 3, 1, 3, 1, 2, 2, 1, 2, 0, 0, 0, 0, 0, 1, 2, 0, 1, 0, 1, 0];
/// One scene, four places one after the other, of which the last stays. Its loop automaton goes 0, 1, 4, 2, 3, 0 and marks all but 4; that
/// of place 0 goes 0, 1, 1.
pub const RIGHT: &[u8] = &[1, 4, 2, 1, 1, 5, 1, 2, 3, 3, 1, 1, 1, 1, 0, 1, 0, 1, 1, 4, 3, 0, 2, 1, 1, 1, 1, 0];
/// Two scenes: 0 leads to place 1 for good, where nothing is marked, 1 leads to place 2 for good. There the loop 1 0 goes 0, 2, 3, which
/// alone is marked, and once more 0, 1; the loops 0, 1, 0 0 and 0 1 end elsewhere.
pub const HALL: &[u8] =
    &[2, 3, 1, 2, 4, 1, 2, 1, 1, 2, 2, 0, 0, 0, 1, 1, 0, 0, 0, 0, 1, 2, 1, 1, 3, 1, 0, 0, 0, 0, 0, 1];

/// The same sheet with every mark turned.
pub fn complemented(sheet: &[u8]) -> Vec<u8> {
    let mut turned = sheet.to_vec();
    complement(sheet, &mut turned).expect("the sheet is in order and fits");
    turned
}

pub struct Row {
    pub name: &'static str,
    pub case: Case,
    /// The first numbers of the answer; the others are 0.
    pub numbers: Vec<usize>,
    /// What the comparison puts at the start of its opening and loop slices; nothing else in them changes.
    pub words: (Vec<u8>, Vec<u8>),
}

pub fn rows() -> Vec<Row> {
    let mut rows = verdict_rows();
    rows.extend(sheet_rows());
    rows.extend(compare_rows());
    rows.extend(standing_rows());
    rows
}

fn verdict_row(name: &'static str, sheet: &[u8], prefix: &[u8], period: &[u8], numbers: &[usize]) -> Row {
    let case = Case::verdict(sheet, prefix, period);
    Row { name, case, numbers: numbers.to_vec(), words: (Vec::new(), Vec::new()) }
}

fn verdict_rows() -> Vec<Row> {
    let zeros = [0; 4097];
    let last_unknown = [&zeros[1..], &[2]].concat();
    vec![
        verdict_row("B, (-, 0)", B, &[], &[0], &[0, 1, 0, 1, 0, 1]),
        verdict_row("B, (0, 1)", B, &[0], &[1], &[0, 0, 0, 1, 0, 0]),
        verdict_row("C, (-, 0)", C, &[], &[0], &[0, 0, 0, 1, 0, 1]),
        verdict_row("C, (-, 0 0)", C, &[], &[0, 0], &[0, 1, 0, 1, 0, 0]),
        verdict_row("E, (-, 0)", E, &[], &[0], &[0, 1, 1, 2, 1, 0]),
        verdict_row("E, (0 0, 0)", E, &[0, 0], &[0], &[0, 0, 0, 2, 2, 0]),
        verdict_row("D, (-, 0)", D, &[], &[0], &[0, 1, 0, 2, 0, 0]),
        verdict_row("a bad opening goes before an empty loop", B, &[0, 2], &[], &[9, 2, 1]),
        verdict_row("a long opening", D, &zeros, &[0], &[0, 1, 0, 2, 1, 0]),
        verdict_row("a long opening, bad at its end, and a bad loop", B, &last_unknown, &[2], &[9, 2, 4096]),
        verdict_row("an empty loop", B, &[0, 1], &[], &[8, 3, 0]),
        verdict_row("a bad loop", B, &[], &[0, 1, 7], &[9, 3, 2]),
        verdict_row("10 bytes of B", &B[..10], &[], &[0], &[1, 0, 10]),
        verdict_row("s = 32", &one_place(32), &[], &[31], &[0, 1, 0, 1, 0, 0]),
        verdict_row("s = 33", &one_place(33), &[], &[31], &[2, 0, 0]),
    ]
}

/// One leading state with one marked progress state.
fn one_place(letters: usize) -> Vec<u8> {
    let mut sheet = vec![letters as u8, 1, 1];
    sheet.resize(3 + 2 * letters, 0);
    sheet.push(1);
    sheet
}

fn sheet_rows() -> Vec<Row> {
    let longer = [B, &[0]].concat();
    vec![
        verdict_row("no byte", &[], &[], &[0], &[1, 0, 0]),
        verdict_row("one byte", &[0], &[], &[0], &[1, 0, 1]),
        verdict_row("s before n", &[0, 0], &[], &[0], &[2, 0, 0]),
        verdict_row("n is 0", &[1, 0], &[], &[0], &[3, 0, 1]),
        verdict_row("n is 33", &[1, 33], &[], &[0], &[3, 0, 1]),
        verdict_row("no room for the sizes", &[1, 2, 0], &[], &[0], &[1, 0, 3]),
        verdict_row("a size of 0", &[1, 2, 1, 0], &[], &[0], &[4, 0, 3]),
        verdict_row("a size of 33", &[1, 2, 33, 0], &[], &[0], &[4, 0, 2]),
        verdict_row("one byte too many", &longer, &[], &[0], &[1, 0, 12]),
        verdict_row("a leading next place", &[2, 1, 1, 0, 1, 1, 0, 2], &[], &[0], &[5, 0, 4]),
        verdict_row("a loop automaton's next place", &[2, 1, 1, 0, 0, 0, 1, 2], &[], &[0], &[5, 0, 6]),
        verdict_row("a mark", &[2, 1, 1, 0, 0, 0, 0, 2], &[], &[0], &[6, 0, 7]),
        verdict_row("a mark before a next place", &[1, 2, 1, 1, 0, 0, 0, 9, 9, 9], &[], &[0], &[6, 0, 7]),
    ]
}

fn compare_row(name: &'static str, sheets: [&[u8]; 2], room: [usize; 2], numbers: &[usize], words: [&[u8]; 2]) -> Row {
    let case = Case::compare(sheets[0], sheets[1], room[0], room[1]);
    Row { name, case, numbers: numbers.to_vec(), words: (words[0].to_vec(), words[1].to_vec()) }
}

fn compare_rows() -> Vec<Row> {
    let none: [&[u8]; 2] = [&[], &[]];
    let cycles: [&[u8]; 2] = [&cycle(7, 31, true), &cycle(1, 32, false)];
    let zeros = [0; 6944];
    let bad_mark = [&A[..7], &[2]].concat();
    let wide: [&[u8]; 2] = [&cycle(8, 16, true), &cycle(4, 16, false)];
    let full: [&[u8]; 2] = [&cycle(8, 17, true), &cycle(4, 15, true)];
    vec![
        compare_row("A in B", [A, B], [3, 3], &[0, 1, 1, 0, 1], [&[], &[1]]),
        compare_row("A in B, just enough room", [A, B], [0, 1], &[0, 1, 1, 0, 1], [&[], &[1]]),
        compare_row("A in B, no room for the loop", [A, B], [5, 0], &[23, 3, 1], none),
        compare_row("B in A", [B, A], [3, 3], &[0, 0, 1], none),
        compare_row("D in C", [D, C], [3, 3], &[0, 0, 2], none),
        compare_row("E in D, which marks all", [E, D], [9, 9], &[0, 0, 3], none),
        compare_row("D in E: place 2 marks nothing", [D, E], [9, 9], &[0, 1, 3, 2, 2, 0, 0, 2], [&[0, 0], &[0, 0]]),
        compare_row("D in E, short opening", [D, E], [1, 0], &[23, 2, 2], none),
        compare_row("D in E, short loop", [D, E], [2, 1], &[23, 3, 2], none),
        compare_row("scene counts differ", [A, C], [3, 3], &[7, 1, 0], none),
        compare_row("first before second", [&bad_mark, &[9]], [3, 3], &[6, 0, 7], none),
        compare_row("second before 7", [C, &bad_mark], [3, 3], &[6, 1, 7], none),
        compare_row("8,224 cells", wide, [0, 0], &[22, 5, 8224], none),
        compare_row("8,192 cells: 8 x 17 is no multiple of 15", full, [9, 135], &[23, 3, 136], none),
        compare_row("6,951 cells, a loop of 6,944", cycles, [0, 6944], &[0, 1, 7, 0, 6944], [&[], &zeros]),
        compare_row("one scene too few for it", cycles, [0, 6943], &[23, 3, 6944], none),
    ]
}

/// Numbers 5 to 8: where the counter-show takes the first sheet, then the second.
///
/// LEFT in RIGHT: no loop leads back to (0, 0), (1, 1) or (2, 2); the opening 0 0 0 leads to (2, 3), and every loop leads back there. The
/// loop 0 ends at 2 and 1: the first rejects it. The loop 0 0 ends at 1, marked, and at 4, not marked.
fn standing_rows() -> Vec<Row> {
    let none: [&[u8]; 2] = [&[], &[]];
    let [left, right, hall, c] = [LEFT, RIGHT, HALL, C].map(complemented);
    let nothing = complemented(A);
    let (zeros, hall_words): ([&[u8]; 2], [&[u8]; 2]) = ([&[0; 3], &[0; 2]], [&[1], &[1, 0]]);
    vec![
        compare_row("LEFT in RIGHT", [LEFT, RIGHT], [3, 2], &[0, 1, 4, 3, 2, 2, 1, 3, 4], zeros),
        compare_row("their complements, exchanged", [&right, &left], [4, 4], &[0, 1, 4, 3, 2, 3, 4, 2, 1], zeros),
        compare_row("RIGHT in LEFT", [RIGHT, LEFT], [9, 9], &[0, 1, 4, 3, 1, 3, 1, 2, 2], [&[0; 3], &[0]]),
        compare_row("LEFT in RIGHT, short opening", [LEFT, RIGHT], [2, 2], &[23, 2, 3], none),
        compare_row("LEFT in RIGHT, short loop", [LEFT, RIGHT], [3, 1], &[23, 3, 2], none),
        compare_row("LEFT in LEFT", [LEFT, LEFT], [9, 9], &[0, 0, 3], none),
        compare_row("the first waits and ends", [HALL, &nothing], [1, 2], &[0, 1, 3, 1, 2, 2, 3], hall_words),
        compare_row("the second waits and ends", [A, &hall], [1, 2], &[0, 1, 3, 1, 2, 0, 0, 2, 3], hall_words),
        compare_row("one turn, not two", [&c, C], [0, 1], &[0, 1, 1, 0, 1, 0, 1, 0, 1], [&[], &[0]]),
    ]
}

/// A sheet with one letter, all automata cycles; only state 0 of each progress automaton is marked, or only it is not.
pub fn cycle(states: usize, size: usize, marked: bool) -> Vec<u8> {
    let around = |count: usize| (0..count).map(move |state| ((state + 1) % count) as u8);
    let mut sheet = vec![1, states as u8];
    sheet.extend(vec![size as u8; states]);
    sheet.extend(around(states));
    for _ in 0..states {
        sheet.extend(around(size));
        sheet.extend((0..size).map(|state| ((state == 0) == marked) as u8));
    }
    sheet
}

#[cfg(test)]
mod tests {
    use super::*;
    use crate::check::Checker;
    use crate::export::Slice;

    #[test]
    fn the_independent_implementation_gives_every_row() {
        let mut checker = Checker::default();
        for row in rows() {
            let bytes = |slice: &Slice| match slice {
                Slice::Bytes(cells) => cells.clone(),
                _ => unreachable!("the players' calls are lent bytes"),
            };
            let after: Vec<Vec<u8>> = checker.due(&row.case).slices.iter().map(bytes).collect();
            let (answer, after) = after.split_last().unwrap();
            let mut numbers: Vec<usize> =
                answer.chunks_exact(8).map(|cell| u64::from_le_bytes(cell.try_into().unwrap()) as usize).collect();
            while numbers.len() > row.numbers.len() && numbers.last() == Some(&0) {
                numbers.pop();
            }
            assert_eq!(numbers, row.numbers, "{}", row.name);
            let mut slices: Vec<Vec<u8>> = row.case.slices.iter().map(bytes).collect();
            slices.pop();
            if let [_, _, prefix, period] = slices.as_mut_slice() {
                prefix[..row.words.0.len()].copy_from_slice(&row.words.0);
                period[..row.words.1.len()].copy_from_slice(&row.words.1);
            }
            assert_eq!(slices, after, "{}", row.name);
        }
    }
}
