//! compare and emptiness.

use crate::driver::calls::{refused, room_needed};
use crate::driver::line::{byte_slices, print, slice, Cell, NoCall};
use crate::driver::random_line::{lent, lent_cells, spelled};
use crate::driver::random_sheets::{faulty_pair, sheet};
use crate::emptiness::{first_accepted, nothing};
use crate::generate;
use crate::inclusion::{cells_needed, Inclusion, Search, MOST_CELLS};
use crate::mix::{of_sizes, sheet_pair};
use crate::plain;
use crate::random::Random;
use crate::sheet::{Part, Refusal, Sheet, MOST};
use crate::standing::Standing;

pub fn compare(words: &[&[u8]], search: &mut Search) -> Result<String, NoCall> {
    let (work, words) = words.split_last().ok_or(NoCall::Wrong)?;
    let [first, second, mut prefix, mut period] = byte_slices(words)?;
    let mut work = slice::<u64>(work)?;
    let result = compared(search, work.len(), &first, &second, &mut prefix, &mut period);
    if let Ok(found) = result {
        found.assert_walked([&first, &second], &prefix, &period);
    }
    clear(&mut work, &result, &first, &second);
    let answer = answer(result, "contained", "missing");
    Ok(format!("{answer} | {} {} {}", print(&prefix), print(&period), print(&work)))
}

pub fn emptiness(words: &[&[u8]], search: &mut Search) -> Result<String, NoCall> {
    let (work, words) = words.split_last().ok_or(NoCall::Wrong)?;
    let [sheet, mut prefix, mut period] = byte_slices(words)?;
    let mut work = slice::<u64>(work)?;
    let result = first_accepted(search, work.len(), &sheet, &mut prefix, &mut period);
    if let Ok(found) = result {
        found.assert_walked([&sheet, &nothing(sheet[0] as usize)], &prefix, &period);
    }
    clear(&mut work, &result, &sheet, &nothing(1));
    let answer = answer(result, "empty", "found");
    Ok(format!("{answer} | {} {} {}", print(&prefix), print(&period), print(&work)))
}

/// By the search, or plainly where the sheets need more cells than the search can have.
pub fn compared(
    search: &mut Search,
    cells: usize,
    first: &[u8],
    second: &[u8],
    prefix: &mut [u8],
    period: &mut [u8],
) -> Result<Inclusion, Refusal> {
    match search.compare_within(0, first, second, &mut [], &mut []) {
        Err(Refusal { number: 22, place, .. }) if place > MOST_CELLS && place <= cells => {
            plain::compare(first, Some(second), prefix, period)
        }
        _ => search.compare_within(cells, first, second, prefix, period),
    }
}

fn answer(result: Result<Inclusion, Refusal>, absent: &str, found: &str) -> String {
    match result {
        Ok(Inclusion::Contained { reached }) => format!("{absent} {reached} 0 0 0 0 0 0"),
        Ok(Inclusion::Missing { reached, prefix, period, standings }) => {
            let [first, second] = standings.map(|Standing { waits, ends }| format!("{waits} {ends}"));
            format!("{found} {reached} {prefix} {period} {first} {second}")
        }
        Err(refusal) => refused(refusal),
    }
}

/// After an answer, and at 23, the work cells that the search needs are 0. Any other refusal changes none.
pub fn clear(work: &mut [u64], result: &Result<Inclusion, Refusal>, first: &[u8], second: &[u8]) {
    if matches!(result, Ok(_) | Err(Refusal { number: 23, .. })) {
        let sheet = |bytes| Sheet::read(bytes, Part::First).expect("the sheets were in order");
        work[..cells_needed(&sheet(first), &sheet(second))].fill(0);
    }
}

pub fn random_compare(random: &mut Random, search: &mut Search) -> String {
    let (first, second) = match random.below(128) {
        0..=23 => faulty_pair(random),
        24 => near_the_limit(random),
        _ => {
            let (_, first, second) = sheet_pair(random);
            (first, second)
        }
    };
    let needed = room_needed(search.compare_within(0, &first, &second, &mut [], &mut []));
    let room = random_room(random, needed, |cells, prefix, period| {
        search.compare_within(cells, &first, &second, prefix, period)
    });
    let sheets = [first, second].map(|slice| spelled(random, &slice)).join(" ");
    format!("{sheets} {room}")
}

pub fn random_emptiness(random: &mut Random, search: &mut Search) -> String {
    let states = random.between(1, 9);
    let letters = random.between(1, 3);
    let size = random.between(1, MOST);
    let sheet = match random.below(8) {
        0 => generate::cycles(letters, states, size, true, random).pack(),
        1..=2 => generate::lock(letters, states, random.between(1, 3), true, random).pack(),
        _ => sheet(random),
    };
    let needed = room_needed(first_accepted(search, 0, &sheet, &mut [], &mut []));
    let room =
        random_room(random, needed, |cells, prefix, period| first_accepted(search, cells, &sheet, prefix, period));
    format!("{} {room}", spelled(random, &sheet))
}

/// The words for opening, loop and work: about as long as the search and the lasso that it finds need.
fn random_room(
    random: &mut Random,
    needed: usize,
    search: impl FnOnce(usize, &mut [u8], &mut [u8]) -> Result<Inclusion, Refusal>,
) -> String {
    // An opening has fewer than N scenes and a loop at most N × K: the cells needed are enough for both.
    let cells = needed.min(u64::LONG);
    let (prefix, period) = match search(cells, &mut vec![0; cells], &mut vec![0; cells]) {
        Ok(Inclusion::Missing { prefix, period, .. }) => (prefix, period),
        _ => (random.below(3), random.below(3)),
    };
    let [prefix, period] = [prefix, period].map(|length| lent(random, length));
    let work = lent_cells(random, needed);
    format!("{} {} {}", spelled(random, &prefix), spelled(random, &period), spelled(random, &work))
}

/// Sheets that need as many cells as a long slice has, or some fewer or more.
fn near_the_limit(random: &mut Random) -> (Vec<u8>, Vec<u8>) {
    const SIZES: [[usize; 4]; 6] =
        [[16, 32, 31, 1], [32, 16, 1, 31], [32, 16, 4, 8], [15, 1, 31, 32], [1, 16, 32, 31], [1, 17, 31, 32]];
    let [states1, states2, size1, size2] = random.pick(&SIZES);
    let letters = random.between(1, 3);
    let [first, second] = if random.once_in(2) {
        [(states1, size1), (states2, size2)].map(|(states, size)| of_sizes(random, letters, states, size))
    } else {
        let first = generate::cycles(letters, states1, size1, true, random);
        [first, generate::cycles(letters, states2, size2, false, random)]
    };
    (first.pack(), second.pack())
}
