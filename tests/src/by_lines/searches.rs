//! compare and emptiness.

use crate::by_lines::told::told;
use crate::by_lines::{bytes, each};
use crate::driver::line::{any_slice, print, NoCall};
use crate::layout::{COMPARE_IN_BYTES, EMPTINESS_BYTES};
use crate::library::{self, Cells, CellsMut};

pub fn compare(words: &[&[u8]]) -> Result<String, NoCall> {
    let [first, second, room @ ..] = each::<5>(words)?;
    let ([first, second], mut room) = (bytes(&[first, second])?, Room::read(room)?);
    let answer = told(
        COMPARE_IN_BYTES,
        |answer| {
            let (prefix, period, work) = room.lend();
            library::compare_in(Cells::from(&first), Cells::from(&second), prefix, period, work, answer)
        },
        |numbers| words_of(numbers, ["contained", "missing"]),
    );
    Ok(format!("{answer} | {}", room.print()))
}

pub fn emptiness(words: &[&[u8]]) -> Result<String, NoCall> {
    let [sheet, room @ ..] = each::<4>(words)?;
    let ([sheet], mut room) = (bytes(&[sheet])?, Room::read(room)?);
    let answer = told(
        EMPTINESS_BYTES,
        |answer| {
            let (prefix, period, work) = room.lend();
            library::emptiness(Cells::from(&sheet), prefix, period, work, answer)
        },
        |numbers| words_of(numbers, ["empty", "found"]),
    );
    Ok(format!("{answer} | {}", room.print()))
}

/// What a search is lent: room for the lasso that it finds, and work cells.
struct Room {
    prefix: Vec<u8>,
    period: Vec<u8>,
    work: Vec<u64>,
}

impl Room {
    fn read([prefix, period, work]: [&[u8]; 3]) -> Result<Self, NoCall> {
        Ok(Room { prefix: any_slice(prefix)?, period: any_slice(period)?, work: any_slice(work)? })
    }

    fn lend(&mut self) -> (CellsMut<'_>, CellsMut<'_>, CellsMut<'_, u64>) {
        ((&mut self.prefix).into(), (&mut self.period).into(), (&mut self.work).into())
    }

    fn print(&self) -> String {
        format!("{} {} {}", print(&self.prefix), print(&self.period), print(&self.work))
    }
}

/// Whether a lasso was found, and the seven numbers after that.
fn words_of(numbers: &[u64], found: [&str; 2]) -> String {
    let rest: Vec<String> = numbers[1..].iter().map(u64::to_string).collect();
    format!("{} {}", found[numbers[0] as usize], rest.join(" "))
}
