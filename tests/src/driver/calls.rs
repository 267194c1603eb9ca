//! The table of calls, and what the driver prints for a line.

use crate::driver::line::{byte_slices, print, NoCall, LONGEST_LINE};
use crate::driver::{boolean, carts, cursor, durations, imports, inclusion, membership, notation, pass, shows};
use crate::inclusion::Search;
use crate::random::Random;
use crate::sheet::{Part, Refusal};

/// A call: a line of DRIVER.md's table. To add one, add it here.
pub struct Call {
    pub name: &'static str,
    /// What is printed for the words after the name.
    pub answer: fn(&[&[u8]], &mut Search) -> Result<String, NoCall>,
    /// The words after the name at random: mostly good ones, with edges and faults among them.
    pub random: fn(&mut Random, &mut Search) -> String,
    /// All that its answers can begin with; each is met often in a run at random.
    pub outcomes: &'static [&'static [&'static str]],
    /// The lent slices that are printed.
    pub lent: &'static [Part],
}

/// The refusals of a packed sheet that is a call's first, or its second.
const FIRST: &[&str] =
    &["refused 1 first", "refused 2 first", "refused 3 first", "refused 4 first", "refused 5 first", "refused 6 first"];
const SECOND: &[&str] = &[
    "refused 1 second",
    "refused 2 second",
    "refused 3 second",
    "refused 4 second",
    "refused 5 second",
    "refused 6 second",
];
const PRODUCT: &[&[&str]] = &[&["filled"], FIRST, SECOND, &["refused 7 second", "refused 20 out", "refused 21 out"]];
const LASSO_FOUND: &[&str] = &["refused 22 work", "refused 23 opening", "refused 23 loop"];
/// What fills the out slice, and what searches for a lasso.
const OUT: &[Part] = &[Part::Out];
const LASSO: &[Part] = &[Part::Opening, Part::Loop, Part::Work];

pub const CALLS: &[Call] = &[
    Call {
        name: "check",
        answer: membership::check,
        random: membership::random_check,
        outcomes: &[&["valid"], FIRST],
        lent: &[],
    },
    Call {
        name: "verdict",
        answer: membership::verdict,
        random: membership::random_verdict,
        outcomes: &[&["accepted", "rejected"], FIRST, &["refused 9 opening", "refused 8 loop", "refused 9 loop"]],
        lent: &[],
    },
    Call {
        name: "complement",
        answer: boolean::complement,
        random: boolean::random_complement,
        outcomes: &[&["filled"], FIRST, &["refused 21 out"]],
        lent: OUT,
    },
    Call {
        name: "intersection",
        answer: boolean::intersection,
        random: boolean::random_product,
        outcomes: PRODUCT,
        lent: OUT,
    },
    Call { name: "union", answer: boolean::union, random: boolean::random_product, outcomes: PRODUCT, lent: OUT },
    Call {
        name: "compare",
        answer: inclusion::compare,
        random: inclusion::random_compare,
        outcomes: &[&["contained", "missing"], FIRST, SECOND, &["refused 7 second"], LASSO_FOUND],
        lent: LASSO,
    },
    Call {
        name: "emptiness",
        answer: inclusion::emptiness,
        random: inclusion::random_emptiness,
        outcomes: &[&["empty", "found"], FIRST, LASSO_FOUND],
        lent: LASSO,
    },
    Call {
        name: "start",
        answer: cursor::start,
        random: cursor::random_start,
        outcomes: &[&["cursor opening", "cursor loop"]],
        lent: &[],
    },
    Call {
        name: "step",
        answer: cursor::step,
        random: cursor::random_cursor,
        outcomes: &[&["passed", "refused 8 loop", "refused 24 cursor"]],
        lent: &[],
    },
    Call {
        name: "rest",
        answer: cursor::rest,
        random: cursor::random_cursor,
        outcomes: &[&["rest", "rest -"]],
        lent: &[],
    },
    Call {
        name: "number",
        answer: notation::number,
        random: notation::random_number,
        outcomes: &[&["number", "refused 11 first"]],
        lent: &[],
    },
    Call {
        name: "read",
        answer: notation::read,
        random: notation::random_read,
        outcomes: &[
            &["filled 3", "filled 4", "refused 2 first", "refused 3 first", "refused 4 first", "refused 5 first"],
            &["refused 6 first", "refused 10 first", "refused 11 first", "refused 12 first", "refused 14 first"],
            &["refused 21 out", "refused 21 seconds"],
        ],
        lent: &[Part::Out, Part::Seconds],
    },
    Call {
        name: "write",
        answer: notation::write,
        random: notation::random_write,
        outcomes: &[
            &["filled", "refused 10 first"],
            FIRST,
            &["refused 21 seconds", "refused 14 seconds", "refused 21 out"],
        ],
        lent: OUT,
    },
    Call {
        name: "read-show",
        answer: shows::read_show,
        random: shows::random_read_show,
        outcomes: &[
            &["filled", "refused 8 first", "refused 9 first", "refused 11 first"],
            &["refused 21 opening", "refused 21 loop"],
        ],
        lent: &[Part::Opening, Part::Loop],
    },
    Call {
        name: "write-show",
        answer: shows::write_show,
        random: shows::random_write_show,
        outcomes: &[&["filled", "refused 9 opening", "refused 8 loop", "refused 9 loop", "refused 21 out"]],
        lent: OUT,
    },
    Call {
        name: "pass",
        answer: pass::pass,
        random: pass::random_pass,
        outcomes: &[&["reached", "unknown"], FIRST],
        lent: &[],
    },
    Call {
        name: "import",
        answer: imports::import,
        random: imports::random_import,
        outcomes: &[
            &["filled", "refused 2 first", "refused 3 first", "refused 5 first", "refused 11 first"],
            &["refused 12 first", "refused 13 first", "refused 21 out"],
        ],
        lent: OUT,
    },
    Call {
        name: "durations",
        answer: durations::durations,
        random: durations::random_durations,
        outcomes: &[
            &["filled", "refused 9 opening", "refused 8 loop", "refused 9 loop", "refused 14 seconds"],
            &["refused 26 opening", "refused 26 loop", "refused 21 out"],
        ],
        lent: OUT,
    },
    Call {
        name: "cart",
        answer: carts::cart,
        random: carts::random_cart,
        outcomes: &[
            &["loaded", "rejected"],
            FIRST,
            &["refused 28 second", "refused 27 second", "refused 9 opening", "refused 8 loop", "refused 9 loop"],
            &["refused 21 out"],
        ],
        lent: OUT,
    },
];

/// What is printed for a line, both without the line feed; the error says why the line is no call.
pub fn judge(line: &[u8], search: &mut Search) -> Result<Vec<u8>, NoCall> {
    if line.len() > LONGEST_LINE {
        return Err(NoCall::Long);
    }
    if line.starts_with(b"#") {
        return Ok(line.to_vec());
    }
    let words: Vec<&[u8]> = line.split(|&byte| byte == b' ').collect();
    let call = CALLS.iter().find(|call| call.name.as_bytes() == words[0]).ok_or(NoCall::Wrong)?;
    (call.answer)(&words[1..], search).map(String::into_bytes)
}

/// What is printed for a line.
pub fn answer(line: &[u8], search: &mut Search) -> Vec<u8> {
    judge(line, search).unwrap_or_else(|_| b"no call".to_vec())
}

/// The lines of an input; the last need not end in a line feed.
pub fn lines(input: &[u8]) -> impl Iterator<Item = &[u8]> {
    input.split_inclusive(|&byte| byte == b'\n').map(|line| line.strip_suffix(b"\n").unwrap_or(line))
}

pub fn refused(refusal: Refusal) -> String {
    format!("refused {} {} {}", refusal.number, refusal.part.name(), refusal.place)
}

/// The room that a call with no room at all asked for (21 or 22); some other length where it had another fault.
pub fn room_needed<T>(result: Result<T, Refusal>) -> usize {
    match result {
        Err(Refusal { number: 21 | 22, place, .. }) => place,
        _ => 20,
    }
}

/// What is printed for a call that is given a slice and fills the out slice.
pub fn one_slice(words: &[&[u8]], call: fn(&[u8], &mut [u8]) -> Result<usize, Refusal>) -> Result<String, NoCall> {
    let [given, mut out] = byte_slices(words)?;
    let answer = filled(call(&given, &mut out));
    Ok(format!("{answer} | {}", print(&out)))
}

/// The answer of a call that fills the out slice.
pub fn filled(result: Result<usize, Refusal>) -> String {
    result.map_or_else(refused, |length| format!("filled {length}"))
}
