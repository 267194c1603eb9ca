//! Lines and slices that are longer than a driver takes at least: memory holds them.

use crate::driver::line::print;
use crate::driver::random_line::Sent;
use crate::printed::verdict_words;
use crate::rows::{complemented, cycle, B};
use crate::verdict::verdict;

/// More than 64 Mi cells.
const CELLS: usize = 70_000_000;
/// A line of more than 64 MiB has so many letters, each spelled out.
const SPELLED: usize = 34_000_000;

pub fn long_slices() -> impl Iterator<Item = Sent> {
    let makers: [fn() -> Sent; 6] = [equal_letters, other_letters, lent_bytes, lent_cells, comment, beyond_all];
    makers.into_iter().map(|make| make())
}

fn sent(name: &str, line: String, due: String) -> Sent {
    Sent { name: name.to_string(), line: line.into_bytes(), due: due.into_bytes() }
}

/// The places go round: where the opening leads says how many scenes it has.
fn equal_letters() -> Sent {
    let sheet = cycle(31, 3, true);
    let given = verdict(&sheet, &vec![0; CELLS], &[0; 31]).expect("sheet and lasso are in order");
    assert_eq!(given.leading, CELLS % 31);
    sent("equal letters", format!("verdict {} {CELLS}*0 31*0", print(&sheet)), verdict_words(&given))
}

/// No two neighbours of the period are alike. After a letter 0 the progress automaton of B stays in its marked state.
fn other_letters() -> Sent {
    let period: Vec<u8> = (0..SPELLED).map(|at| (at % 2) as u8).collect();
    sent("letters spelled out", format!("verdict {} 1 {}", print(B), print(&period)), "accepted 0 1 0 1".to_string())
}

fn lent_bytes() -> Sent {
    let (turned, rest) = (print(&complemented(B)), CELLS - B.len());
    let due = format!("filled {} | {turned},{rest}*9", B.len());
    sent("lent bytes", format!("complement {} {CELLS}*9", print(B)), due)
}

/// Of the work cells the search needs three.
fn lent_cells() -> Sent {
    let line = format!("emptiness {} - 9 {CELLS}*18446744073709551615", print(B));
    let due = format!("found 1 0 1 0 1 0 0 | - 0 3*0,{}*18446744073709551615", CELLS - 3);
    sent("lent cells", line, due)
}

fn comment() -> Sent {
    let line = format!("#{}", " no call\r".repeat(CELLS / 9));
    sent("comment", line.clone(), line)
}

fn beyond_all() -> Sent {
    sent("2^32 cells", "start 4294967295*0,0".to_string(), "no call".to_string())
}
