//! The mix of sheets that the cases at random take: valid ones, damaged ones, garbage, and pairs of them.

use crate::generate::{self, Draft};
use crate::random::Random;
use crate::sheet::MOST;

/// A lone sheet, with the kind that it counts as.
pub fn any_sheet(random: &mut Random) -> (&'static str, Vec<u8>) {
    let sheet = generate::sheet(random).pack();
    match random.below(16) {
        0..=3 => ("damaged sheet", damaged(random, sheet)),
        4 => ("garbage", garbage(random)),
        _ => ("valid sheet", sheet),
    }
}

/// Bytes that are no sheet, or only by luck.
pub fn garbage(random: &mut Random) -> Vec<u8> {
    let most = random.pick(&[0, 1, 2, 8, 64, 2000]);
    let length = random.between(0, most);
    let limit = random.pick(&[3, 34, 256]);
    random.word(length, limit)
}

fn damaged(random: &mut Random, mut sheet: Vec<u8>) -> Vec<u8> {
    let length = sheet.len();
    match random.below(8) {
        0 => sheet.truncate(length - 1),
        1 => sheet.truncate(random.below(length)),
        2 => {
            let more = random.between(1, 9);
            sheet.extend(random.bytes(more));
        }
        choice => {
            let reach = if choice == 3 { length.min(2 + MOST) } else { length };
            let at = if choice == 4 { random.below(2) } else { random.below(reach) };
            let other = random.byte();
            sheet[at] = random.pick(&[sheet[at].wrapping_add(1), sheet[at].wrapping_sub(1), 0, 2, 32, 33, 255, other]);
        }
    }
    sheet
}

/// Two sheets for a comparison.
pub fn sheet_pair(random: &mut Random) -> (&'static str, Vec<u8>, Vec<u8>) {
    let first = generate::sheet(random);
    let draft: (&str, Draft, Draft) = match random.below(64) {
        0..=11 => {
            let second = generate::sheet_of(random, first.letters, generate::count);
            ("two valid sheets", first, second)
        }
        12..=15 => far_states(random),
        16..=19 => ("one sheet twice", first.clone(), first),
        20..=25 => {
            let second = generate::renumbered(random, &first);
            ("renumbered", first, second)
        }
        26..=31 => {
            let second = generate::widened(random, &first);
            ("marks added", first, generate::renumbered(random, &second))
        }
        32..=40 => {
            let second = generate::altered(random, &first);
            ("one byte altered", first, generate::renumbered(random, &second))
        }
        41..=46 => long_loops(random),
        47..=52 => long_openings(random),
        53 if random.once_in(12) => near_the_limit(random),
        53..=55 => ("other scenes", first, generate::sheet(random)),
        _ => return faulty_pair(random),
    };
    (draft.0, draft.1.pack(), draft.2.pack())
}

/// Two sheets, one or both of them at fault.
fn faulty_pair(random: &mut Random) -> (&'static str, Vec<u8>, Vec<u8>) {
    let (first, second) = (generate::sheet(random).pack(), generate::sheet(random).pack());
    match random.below(10) {
        0..=2 => ("first damaged", damaged(random, first), second),
        3..=5 => ("second damaged", first, damaged(random, second)),
        8..=9 => ("both damaged", damaged(random, first), damaged(random, second)),
        6 => ("first garbage", garbage(random), second),
        _ => ("second garbage", first, garbage(random)),
    }
}

fn long_loops(random: &mut Random) -> (&'static str, Draft, Draft) {
    let letters = random.between(1, 2);
    let (size1, size2) = (random.between(1, MOST), random.between(1, MOST));
    let states = random.between(1, 7);
    let first = generate::cycles(letters, states, size1, true, random);
    let second = generate::cycles(letters, random.pick(&[1, states]), size2, false, random);
    ("cycles", first, second)
}

fn long_openings(random: &mut Random) -> (&'static str, Draft, Draft) {
    let letters = random.between(1, 4);
    let (states1, states2) = (random.between(1, 12), random.between(1, 8));
    let first = generate::lock(letters, states1, random.between(1, 3), true, random);
    let second = generate::lock(letters, states2, random.between(1, 3), false, random);
    ("locks", first, second)
}

/// Sheets whose counterexamples wait and end at four different states above 0.
fn far_states(random: &mut Random) -> (&'static str, Draft, Draft) {
    let mut states = [1, 2, 3, 4, 5, 6, 7, 8];
    random.shuffle(&mut states);
    let [waits1, ends1, waits2, ends2, ..] = states;
    let letters = random.between(1, 3);
    let first = generate::waiting(letters, waits1, ends1, true, random);
    ("far states", first, generate::waiting(letters, waits2, ends2, false, random))
}

/// Sheets that need about 8,192 cells, reached or not.
fn near_the_limit(random: &mut Random) -> (&'static str, Draft, Draft) {
    const SIZES: [[usize; 4]; 9] = [
        [8, 4, 17, 15],
        [8, 4, 16, 16],
        [4, 2, 32, 32],
        [4, 2, 31, 32],
        [8, 8, 9, 14],
        [16, 8, 7, 9],
        [32, 8, 1, 31],
        [16, 32, 3, 5],
        [32, 32, 7, 1],
    ];
    let [states1, states2, size1, size2] = random.pick(&SIZES);
    let letters = random.between(1, 3);
    ("near 8,192 cells", of_sizes(random, letters, states1, size1), of_sizes(random, letters, states2, size2))
}

/// A sheet with so many leading states, and so many progress states for each.
pub fn of_sizes(random: &mut Random, letters: usize, states: usize, size: usize) -> Draft {
    let shape = random.pick(&generate::SHAPES);
    let leading = generate::table(random, shape, letters, states);
    let shape = random.pick(&generate::SHAPES);
    let marks = |random: &mut Random| (0..size).map(|_| random.once_in(2) as u8).collect();
    let progress = (0..states).map(|_| (generate::table(random, shape, letters, size), marks(random))).collect();
    Draft { letters, leading, progress }
}
