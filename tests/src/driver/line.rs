//! The words of a line: numbers and slices, read and printed.
//!
//! Where DRIVER.md, the page on the driver's lines, is silent, these readings are taken:
//! - A line is what stands between line feeds; every other byte, a carriage return too, belongs to it. After the last line feed there is
//!   no line.
//! - An empty line is no call. So is one with a space at its start or end, or with two spaces in a row: an empty word is no argument.
//! - Names and parts are compared byte by byte: `Check` is no call. Only a line whose first byte is `#` is a comment.
//! - COUNT is a number like any other: `01*5` is no call, `1*5` is one cell. `-` stands alone: `-,5` is no call.
//! - Lent slices are printed after a refusal as after an answer.
//! - What is longer than a driver takes at least may be a call for one driver and none for another: it is `Long`, and no line at random.
//!   But a slice of 2^32 cells or more is no call for any driver, and counts are added up without wrapping.

use std::fmt::{Display, Write};

/// The longest line, and the most cells of a slice, that a driver takes at least.
pub const LONGEST_LINE: usize = 64 << 20;
pub const LONGEST_SLICE: u64 = 64 << 20;
/// No driver takes a slice of so many cells.
const BEYOND_ALL: u64 = 1 << 32;

/// Why a line is no call.
#[derive(Clone, Copy, Debug, PartialEq, Eq)]
pub enum NoCall {
    /// It is none of DRIVER.md's lines.
    Wrong,
    /// It is longer than a driver must take, or than memory holds: one driver may take it, another not.
    Long,
}

pub trait Cell: Copy + PartialEq + Display + TryFrom<u64> {
    /// The cells of a long slice at random.
    const LONG: usize;
}

impl Cell for u8 {
    const LONG: usize = 300_000;
}

impl Cell for u16 {
    const LONG: usize = 65_536;
}

impl Cell for u64 {
    const LONG: usize = 16_384;
}

/// A number: decimal, below 2^64, with no needless leading zero.
pub fn number(word: &[u8]) -> Result<u64, NoCall> {
    let needless_zero = word.len() > 1 && word[0] == b'0';
    if needless_zero || !word.iter().all(u8::is_ascii_digit) {
        return Err(NoCall::Wrong);
    }
    // What is left to refuse is the empty word and what is 2^64 or above.
    let digits = std::str::from_utf8(word).map_err(|_| NoCall::Wrong)?;
    digits.parse().map_err(|_| NoCall::Wrong)
}

/// A slice that every driver takes: `-`, or items with a comma between, each a value or COUNT*VALUE.
pub fn slice<T: Cell>(word: &[u8]) -> Result<Vec<T>, NoCall> {
    slice_within(word, LONGEST_SLICE)
}

/// A slice that one driver takes: as long as memory holds.
pub fn any_slice<T: Cell>(word: &[u8]) -> Result<Vec<T>, NoCall> {
    slice_within(word, BEYOND_ALL)
}

/// What is no slice is found, and how long it is, before any cell is held.
fn slice_within<T: Cell>(word: &[u8], most: u64) -> Result<Vec<T>, NoCall> {
    let mut length: u64 = 0;
    for item in items::<T>(word) {
        let (count, _) = item?;
        length = length.saturating_add(count);
        if count == 0 || length >= BEYOND_ALL {
            return Err(NoCall::Wrong);
        }
    }
    let mut cells = Vec::new();
    if length > most || cells.try_reserve_exact(length as usize).is_err() {
        return Err(NoCall::Long);
    }
    for (count, value) in items(word).flatten() {
        cells.resize(cells.len() + count as usize, value);
    }
    Ok(cells)
}

/// Count and value of each item; none of `-`.
fn items<T: Cell>(word: &[u8]) -> impl Iterator<Item = Result<(u64, T), NoCall>> + '_ {
    let items = word.split(|&byte| byte == b',').skip((word == b"-") as usize);
    items.map(|item| {
        let (count, value) = match item.iter().position(|&byte| byte == b'*') {
            Some(star) => (number(&item[..star])?, &item[star + 1..]),
            None => (1, item),
        };
        Ok((count, T::try_from(number(value)?).map_err(|_| NoCall::Wrong)?))
    })
}

/// The arguments of a call that takes byte slices only.
pub fn byte_slices<const COUNT: usize>(words: &[&[u8]]) -> Result<[Vec<u8>; COUNT], NoCall> {
    let words: &[&[u8]; COUNT] = words.try_into().map_err(|_| NoCall::Wrong)?;
    let mut slices = [const { Vec::new() }; COUNT];
    for (cells, word) in slices.iter_mut().zip(words) {
        *cells = slice(word)?;
    }
    Ok(slices)
}

/// A slice as it is printed: each maximal run of two or more equal cells as COUNT*VALUE.
pub fn print<T: Cell>(cells: &[T]) -> String {
    spell(cells.chunk_by(|left, right| left == right))
}

/// The items for runs of equal cells, `-` if there are none.
pub fn spell<'a, T: Cell + 'a>(runs: impl Iterator<Item = &'a [T]>) -> String {
    let mut word = String::new();
    for run in runs {
        let comma = if word.is_empty() { "" } else { "," };
        let printed = match run {
            [cell] => write!(word, "{comma}{cell}"),
            _ => write!(word, "{comma}{}*{}", run.len(), run[0]),
        };
        printed.expect("a string takes all");
    }
    if word.is_empty() {
        word.push('-');
    }
    word
}

#[cfg(test)]
mod tests {
    use super::*;

    #[test]
    fn numbers_are_those_of_the_papers() {
        for (word, value) in [("0", 0), ("7", 7), ("10", 10), ("18446744073709551615", u64::MAX)] {
            assert_eq!(number(word.as_bytes()), Ok(value));
        }
        for word in ["", "-", "00", "01", "+1", "-1", "1 ", "0x1", "1.", "18446744073709551616", "99999999999999999999"]
        {
            assert_eq!(number(word.as_bytes()), Err(NoCall::Wrong), "{word}");
        }
        assert_eq!(number(b"\xb9"), Err(NoCall::Wrong));
    }

    #[test]
    fn slices_are_those_of_the_papers() {
        for (word, cells) in [("-", vec![]), ("0", vec![0]), ("255", vec![255]), ("1*5,2*5,6", vec![5, 5, 5, 6])] {
            assert_eq!(slice::<u8>(word.as_bytes()), Ok(cells), "{word}");
        }
        let wrong = [
            "", "--", "-,1", "1,-", ",", "1,", ",1", "1,,2", "256", "1*256", "0*5", "3*", "*3", "1*1*1", "01*5", "1*05",
        ];
        for word in wrong {
            assert_eq!(slice::<u8>(word.as_bytes()), Err(NoCall::Wrong), "{word}");
        }
        for word in ["18446744073709551615*1,2*1", "9223372036854775808*0,9223372036854775808*0,5", "4294967297*0"] {
            assert_eq!(slice::<u8>(word.as_bytes()), Err(NoCall::Wrong), "{word}");
        }
        assert_eq!(slice::<u8>(b"67108863*7,1").map(|cells| cells.len()), Ok(67_108_864));
        assert_eq!(slice::<u8>(b"67108864*7,1"), Err(NoCall::Long));
        assert_eq!(slice::<u8>(b"67108864*7,1,"), Err(NoCall::Wrong));
        assert_eq!(any_slice::<u8>(b"67108864*7,1").map(|cells| cells.len()), Ok(67_108_865));
        assert_eq!(any_slice::<u8>(b"4294967295*0,0"), Err(NoCall::Wrong));
        assert_eq!(slice::<u16>(b"65536*65535").map(|cells| cells.len()), Ok(65_536));
        assert_eq!(slice::<u16>(b"65536"), Err(NoCall::Wrong));
        assert_eq!(slice::<u64>(b"16384*18446744073709551615").map(|cells| cells.len()), Ok(16_384));
        assert_eq!(slice::<u64>(b"67108865*0"), Err(NoCall::Long));
    }

    #[test]
    fn printed_runs_are_maximal() {
        for word in ["-", "0", "2*0", "0,1,0", "3*255,0,2*255"] {
            assert_eq!(print(&slice::<u8>(word.as_bytes()).unwrap()), word);
        }
        assert_eq!(print(&slice::<u64>(b"1*4,4,2*4,18446744073709551615").unwrap()), "4*4,18446744073709551615");
    }
}
