//! How often each outcome of each call is met.

use crate::driver::calls::{Call, CALLS};
use crate::driver::line::slice;
use std::collections::{BTreeMap, BTreeSet};
use std::fmt;

/// Where a line counts that names no call.
const OTHER: &str = "other lines";
const NO_CALL: &str = "no call";
const COMMENT: &str = "comment";
/// Added to an outcome where each lent slice is exactly as long as needed, or one is one cell too short.
const JUST_ENOUGH: &str = ", just enough room";
const ONE_TOO_FEW: &str = ", one cell too few";
/// Added to an outcome where the lasso found takes the sheets to states that are all above 0 and no two alike.
const APART: &str = ", waits and ends above 0, no two alike";
/// Added where a pass reached a state above 0, or met a letter out of range in a later part than the first.
const ABOVE_0: &str = ", above 0";
const LATER_PART: &str = ", in a later part";
/// Added where a text was to be written at that level.
const LEVEL_3: &str = ", level three";
const LEVEL_4: &str = ", level four";
/// Added where a cart has as many shows as it may have; where a later show than the first was rejected or refused; where
/// a loop should begin at the cart's end; where the count was 0, or too large; where the cart had no byte.
const ALL_SHOWS: &str = ", 64 shows";
const LATER_SHOW: &str = ", a later show";
const AT_THE_END: &str = ", at the cart's end";
const NO_SHOW: &str = ", no show";
const TOO_MANY: &str = ", more than 64 shows";
const EMPTY_CART: &str = ", an empty cart";

#[derive(Default)]
pub struct Coverage {
    counts: BTreeMap<(&'static str, String), usize>,
    unlisted: Vec<String>,
}

impl Coverage {
    pub fn add(&mut self, line: &[u8], due: &[u8]) {
        let due = String::from_utf8_lossy(due);
        let name = line.split(|&byte| byte == b' ').next().unwrap_or_default();
        let call = CALLS.iter().find(|call| call.name.as_bytes() == name);
        match call {
            _ if line.starts_with(b"#") => self.count(OTHER, COMMENT),
            None => self.count(OTHER, NO_CALL),
            Some(call) if due == NO_CALL => self.count(call.name, NO_CALL),
            Some(call) => match outcome(call, &due) {
                Some(outcome) => {
                    self.count(call.name, outcome);
                    let room = room(call, line, &due).filter(|_| needs_room(outcome));
                    let more = room.into_iter().chain(apart(&due)).chain(passed(line, &due)).chain(level(line));
                    for more in more.chain(of_cart(line, &due)) {
                        self.count(call.name, &format!("{outcome}{more}"));
                    }
                }
                None => self.unlisted.push(format!("{}: {due}", call.name)),
            },
        }
    }

    fn count(&mut self, name: &'static str, outcome: &str) {
        *self.counts.entry((name, outcome.to_string())).or_default() += 1;
    }

    /// The outcomes that are due and were met less often than that, and those that were met and are not listed.
    pub fn faults(&self, least: usize) -> Vec<String> {
        let mut due = vec![(OTHER, NO_CALL.to_string()), (OTHER, COMMENT.to_string())];
        for call in CALLS {
            due.push((call.name, NO_CALL.to_string()));
            for outcome in call.outcomes.concat() {
                due.push((call.name, outcome.to_string()));
                if needs_room(outcome) {
                    let room = if outcome.starts_with("refused") { ONE_TOO_FEW } else { JUST_ENOUGH };
                    due.push((call.name, format!("{outcome}{room}")));
                }
                let more: &[&str] = match (call.name, outcome) {
                    (_, "missing" | "found") => &[APART],
                    (_, "reached") => &[ABOVE_0],
                    (_, "unknown") => &[LATER_PART],
                    ("write", "refused 14 seconds" | "refused 21 seconds") => &[LEVEL_4],
                    ("write", outcome) if outcome != "refused 10 first" => &[LEVEL_3, LEVEL_4],
                    ("cart", "loaded") => &[ALL_SHOWS],
                    ("cart", "rejected" | "refused 9 opening" | "refused 9 loop") => &[LATER_SHOW],
                    ("cart", "refused 8 loop") => &[LATER_SHOW, AT_THE_END],
                    ("cart", "refused 27 second") => &[NO_SHOW, TOO_MANY],
                    ("cart", "refused 28 second") => &[EMPTY_CART],
                    _ => continue,
                };
                due.extend(more.iter().map(|more| (call.name, format!("{outcome}{more}"))));
            }
        }
        let met = |key: &(&'static str, String)| self.counts.get(key).copied().unwrap_or(0);
        let few = due.into_iter().filter(|key| met(key) < least);
        let few = few.map(|key| format!("{}: {} was met {} times", key.0, key.1, met(&key)));
        few.chain(self.unlisted.iter().map(|outcome| format!("unlisted: {outcome}"))).collect()
    }
}

/// The longest listed outcome that an answer begins with.
fn outcome(call: &Call, due: &str) -> Option<&'static str> {
    let begins =
        |outcome: &&str| due.strip_prefix(*outcome).is_some_and(|rest| rest.is_empty() || rest.starts_with(' '));
    call.outcomes.concat().into_iter().filter(begins).max_by_key(|outcome| outcome.len())
}

fn needs_room(outcome: &str) -> bool {
    let refused = ["refused 21", "refused 22", "refused 23"].iter().any(|refused| outcome.starts_with(refused));
    refused || ["filled", "filled 3", "filled 4", "missing", "found", "loaded"].contains(&outcome)
}

/// Whether the lent slices that the answer speaks of are exactly as long as needed, or the one refused is one cell too short.
fn room(call: &Call, line: &[u8], due: &str) -> Option<&'static str> {
    let (answer, printed) = due.split_once(" | ")?;
    let lengths: Vec<usize> = printed.split(' ').map(length).collect();
    let words: Vec<&str> = answer.split(' ').collect();
    let number = |at: usize| words[at].parse::<usize>().ok();
    match words[0] {
        "refused" if (call.name, words[2]) == ("write", "seconds") => {
            let seconds = line.split(|&byte| byte == b' ').nth(3)?;
            (length(&String::from_utf8_lossy(seconds)) + 1 == number(3)?).then_some(ONE_TOO_FEW)
        }
        "refused" => {
            let at = call.lent.iter().position(|part| part.name() == words[2])?;
            (lengths[at] + 1 == number(3)?).then_some(ONE_TOO_FEW)
        }
        "filled" if call.name == "read" => {
            // The sheet's first cell is how many seconds level four needs.
            let letters = printed.split(',').next()?.rsplit('*').next()?;
            let needed = [number(2)?, if words[1] == "4" { letters.parse().ok()? } else { lengths[1] }];
            (lengths == needed).then_some(JUST_ENOUGH)
        }
        "filled" | "loaded" => (0..lengths.len()).all(|at| number(1 + at) == Some(lengths[at])).then_some(JUST_ENOUGH),
        "missing" | "found" => ((lengths[0], lengths[1]) == (number(2)?, number(3)?)).then_some(JUST_ENOUGH),
        _ => None,
    }
}

/// Whether waits and ends, of both sheets or of the only one, are above 0 and no two alike.
fn apart(due: &str) -> Option<&'static str> {
    let words: Vec<&str> = due.split(' ').collect();
    let standings = match words[0] {
        "missing" => &words[4..8],
        "found" => &words[4..6],
        _ => return None,
    };
    let with_zero: BTreeSet<&str> = standings.iter().copied().chain(["0"]).collect();
    (with_zero.len() == standings.len() + 1).then_some(APART)
}

/// Whether a pass reached a state above 0, or met a letter out of range in a later part than the first.
fn passed(line: &[u8], due: &str) -> Option<&'static str> {
    match due.split_once(' ')? {
        ("reached", state) => (state != "0").then_some(ABOVE_0),
        ("unknown", position) => {
            let first = String::from_utf8_lossy(line.split(|&byte| byte == b' ').nth(2)?);
            (position.parse::<usize>().ok()? >= length(&first)).then_some(LATER_PART)
        }
        _ => None,
    }
}

/// The level that a line of writing tells.
fn level(line: &[u8]) -> Option<&'static str> {
    match line.get(..8)? {
        b"write 3 " => Some(LEVEL_3),
        b"write 4 " => Some(LEVEL_4),
        _ => None,
    }
}

/// What more is told of a line with a cart.
fn of_cart(line: &[u8], due: &str) -> Vec<&'static str> {
    let words: Vec<&[u8]> = line.split(|&byte| byte == b' ').collect();
    let [b"cart", _, cart, _] = words[..] else { return Vec::new() };
    let cart: Vec<u8> = slice(cart).expect("it was taken");
    let due: Vec<&str> = due.split(' ').collect();
    let number = |at: usize| due[at].parse::<usize>().expect("an answer has its numbers");
    let labels = match due[..2] {
        ["loaded", _] => [(cart[0] == 64, ALL_SHOWS)].to_vec(),
        ["rejected", _] => [(number(1) > 0, LATER_SHOW)].to_vec(),
        ["refused", "27"] => [(cart[0] == 0, NO_SHOW), (cart[0] > 0, TOO_MANY)].to_vec(),
        ["refused", "28"] => [(cart.is_empty(), EMPTY_CART)].to_vec(),
        ["refused", "8" | "9"] => {
            let lengths = [1, 3].map(|at| u16::from_le_bytes([cart[at], cart[at + 1]]) as usize);
            let first_end = 5 + lengths[0] + lengths[1];
            [(number(3) > first_end, LATER_SHOW), (number(3) == cart.len(), AT_THE_END)].to_vec()
        }
        _ => Vec::new(),
    };
    labels.into_iter().filter(|label| label.0).map(|label| label.1).collect()
}

/// How many cells a slice has, as it is spelled.
fn length(word: &str) -> usize {
    let count = |item: &str| item.split_once('*').map_or(1, |(count, _)| count.parse().expect("it was taken"));
    if word == "-" {
        0
    } else {
        word.split(',').map(count).sum()
    }
}

impl fmt::Display for Coverage {
    fn fmt(&self, out: &mut fmt::Formatter) -> fmt::Result {
        let mut last = "";
        for ((name, outcome), count) in &self.counts {
            if *name != last {
                writeln!(out, "{name}")?;
                last = name;
            }
            writeln!(out, "{count:>9}  {outcome}")?;
        }
        Ok(())
    }
}
