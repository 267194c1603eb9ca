//! The bytes of an answer that are due, after docs/ANSWER.md: 64-bit numbers, low byte first.

use crate::inclusion::Inclusion;
use crate::sheet::Refusal;
use crate::verdict::Verdict;
use std::ops::Range;

pub const VERDICT_BYTES: usize = 48;
pub const COMPARE_BYTES: usize = 72;
pub const CHECK_BYTES: usize = 32;
pub const COMPLEMENT_BYTES: usize = 24;
pub const INTERSECTION_BYTES: usize = 24;
pub const UNION_BYTES: usize = 24;
pub const COMPARE_IN_BYTES: usize = 72;
pub const EMPTINESS_BYTES: usize = 72;
pub const CURSOR_START_BYTES: usize = 24;
pub const CURSOR_STEP_BYTES: usize = 32;
pub const CURSOR_REST_BYTES: usize = 32;
pub const PASS_START_BYTES: usize = 32;
pub const PASS_ON_BYTES: usize = 32;
pub const NUMBER_READ_BYTES: usize = 24;
pub const SHEET_READ_BYTES: usize = 24;
pub const SHEET_WRITE_BYTES: usize = 24;
pub const SHOW_READ_BYTES: usize = 24;
pub const SHOW_WRITE_BYTES: usize = 24;
pub const IMPORT_BYTES: usize = 24;
pub const DURATIONS_BYTES: usize = 24;
pub const CART_BYTES: usize = 24;

/// The bytes of a comparison's numbers 5 to 8: where the counterexample takes the first sheet, then the second.
pub const STANDINGS: Range<usize> = 40..72;

/// What a call answers: its numbers but for the leading 0, or the refusal.
pub type Told = Result<Vec<usize>, Refusal>;

/// Fills an answer slice that is as long as the call's answer; numbers that are left out are 0.
pub fn put(answer: &mut [u8], told: &Told) {
    let (first, numbers) = match told {
        Ok(numbers) => (0, numbers.as_slice()),
        Err(Refusal { number, part, place }) => (*number, &[*part as usize, *place][..]),
    };
    answer.fill(0);
    for (cell, &number) in answer.chunks_exact_mut(8).zip([&first].into_iter().chain(numbers)) {
        cell.copy_from_slice(&(number as u64).to_le_bytes());
    }
}

pub fn verdict_numbers(given: Verdict) -> Vec<usize> {
    vec![given.accepted as usize, given.before, given.turns, given.leading, given.end]
}

/// Those of a comparison, and of a search for an accepted lasso.
pub fn inclusion_numbers(given: Inclusion) -> Vec<usize> {
    match given {
        Inclusion::Contained { reached } => vec![0, reached],
        Inclusion::Missing { reached, prefix, period, standings: [first, second] } => {
            vec![1, reached, prefix, period, first.waits, first.ends, second.waits, second.ends]
        }
    }
}
