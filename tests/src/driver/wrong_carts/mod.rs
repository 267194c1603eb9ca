//! Loaders of carts that are wrong in one way each: the stored rows must find each, and so must lines at random.
//!
//! `form` has what is wrong about counts and lengths, `shows` about 9 and 8, `answer` about room, verdicts and what is
//! copied.

mod answer;
mod form;
mod shows;

use crate::cart::{Answer, Show};
use crate::driver::carts::cart_by;
use crate::lent::fill;
use crate::sheet::{Part, Refusal, Sheet};
use Judged::*;

/// What is judged before the verdicts, in the order that is due.
#[derive(Clone, Copy)]
enum Judged {
    TheSheet,
    NoByte,
    Count,
    Length,
    Shows,
    Room,
}

const DUE: [Judged; 6] = [TheSheet, NoByte, Count, Length, Shows, Room];

/// Other orders, each named by what comes too early or too late.
const ORDERS: [(&str, [Judged; 6]); 9] = [
    ("sheet-after-28", [NoByte, Count, Length, TheSheet, Shows, Room]),
    ("27-of-an-empty-cart", [TheSheet, Count, NoByte, Length, Shows, Room]),
    ("28-before-27", [TheSheet, NoByte, Length, Count, Shows, Room]),
    ("9-before-27", [TheSheet, NoByte, Shows, Count, Length, Room]),
    ("9-before-28", [TheSheet, NoByte, Count, Shows, Length, Room]),
    ("21-first", [Room, TheSheet, NoByte, Count, Length, Shows]),
    ("21-before-27", [TheSheet, NoByte, Room, Count, Length, Shows]),
    ("21-before-28", [TheSheet, NoByte, Count, Room, Length, Shows]),
    ("21-before-9", [TheSheet, NoByte, Count, Length, Room, Shows]),
];

pub fn kinds() -> impl Iterator<Item = &'static str> {
    ORDERS.iter().map(|order| order.0).chain(form::KINDS).chain(shows::KINDS).chain(answer::KINDS)
}

/// What is printed for a line by a driver that loads carts in that wrong way; none where the line is of another call.
pub fn wrong(kind: &str, line: &[u8]) -> Option<Vec<u8>> {
    let words: Vec<&[u8]> = line.strip_prefix(b"cart ")?.split(|&byte| byte == b' ').collect();
    let printed = cart_by(&words, |sheet, cart, out| Call { kind, sheet, cart }.load(out));
    Some(printed.map_or_else(|_| b"no call".to_vec(), String::into_bytes))
}

struct Call<'a> {
    kind: &'a str,
    sheet: &'a [u8],
    cart: &'a [u8],
}

/// The shows of a cart as far as they go, where they end, and whether they are all that it has.
struct Found<'a> {
    shows: Vec<Show<'a>>,
    end: usize,
    is_whole: bool,
}

impl Call<'_> {
    fn load(&self, out: &mut [u8]) -> Result<Answer, Refusal> {
        if self.kind == "show-by-show" {
            return self.load_by_show(out);
        }
        let order = ORDERS.iter().find(|order| order.0 == self.kind).map_or(DUE, |order| order.1);
        order.into_iter().try_for_each(|judged| self.judge(judged, out))?;
        self.answer(&self.found(), out)
    }

    /// Each show is judged whole before the next.
    fn load_by_show(&self, out: &mut [u8]) -> Result<Answer, Refusal> {
        [TheSheet, NoByte, Count, Length].into_iter().try_for_each(|judged| self.judge(judged, out))?;
        let shows = self.found().shows;
        for (index, show) in shows.iter().enumerate() {
            show.judge_letters(self.sheet[0] as usize)?;
            if !self.accepts(&shows, index) {
                return Ok(Answer::Rejected(index));
            }
        }
        fill(out, self.cart).map(Answer::Loaded)
    }

    fn judge(&self, judged: Judged, out: &mut [u8]) -> Result<(), Refusal> {
        match judged {
            TheSheet => Sheet::read(self.sheet, Part::First).map(drop),
            NoByte if self.cart.is_empty() => Err(self.refused_28(0)),
            NoByte => Ok(()),
            Count => self.judge_count(),
            Length => self.judge_length(),
            Shows => self.judge_shows(),
            Room => self.judge_room(out),
        }
    }
}
