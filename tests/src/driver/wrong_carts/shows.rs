//! Another order of the faults of shows, faults that are not judged, other bounds, other places, other parts.

use super::Call;
use crate::cart::{Show, HEADER};
use crate::sheet::{Part, Refusal, MOST};

pub const KINDS: [&str; 24] = [
    "8-before-9",
    "loop-9-first",
    "9-of-all-first",
    "8-of-all-first",
    "openings-of-all-first",
    "last-show-first",
    "later-shows-not-judged",
    "openings-not-judged",
    "loops-not-judged",
    "8-not-judged",
    "9-by-32",
    "9-above-s",
    "9-at-the-last",
    "9-in-the-show",
    "9-in-the-part",
    "9-after-the-count",
    "9-parts-exchanged",
    "9-of-second",
    "8-at-0",
    "8-in-the-show",
    "8-at-the-lengths",
    "8-at-the-end",
    "8-of-the-opening",
    "8-of-second",
];

/// What a show may be refused for, in the order that is due.
#[derive(Clone, Copy, PartialEq, Eq, PartialOrd, Ord)]
enum Fault {
    Opening,
    NoLoop,
    Loop,
}

impl Call<'_> {
    /// Of all faults of all shows the one that comes first in some order.
    pub fn judge_shows(&self) -> Result<(), Refusal> {
        let shows = self.found().shows;
        let mut faults: Vec<(usize, Fault)> = Vec::new();
        for (index, show) in shows.iter().enumerate() {
            let unknown = |word: &[u8]| word.iter().any(|&letter| self.is_unknown(letter));
            let met = [unknown(show.prefix), show.period.is_empty(), unknown(show.period)];
            let met = [Fault::Opening, Fault::NoLoop, Fault::Loop].into_iter().zip(met).filter(|fault| fault.1);
            faults.extend(met.map(|(fault, _)| (index, fault)));
        }
        faults.retain(|&(index, fault)| match self.kind {
            "later-shows-not-judged" => index == 0,
            "openings-not-judged" => fault != Fault::Opening,
            "loops-not-judged" => fault != Fault::Loop,
            "8-not-judged" => fault != Fault::NoLoop,
            _ => true,
        });
        let key = |&(index, fault): &(usize, Fault)| {
            let is_8 = fault == Fault::NoLoop;
            match self.kind {
                "8-before-9" => (index, !is_8 as usize, fault),
                "loop-9-first" => (index, (fault != Fault::Loop) as usize, fault),
                "9-of-all-first" => (is_8 as usize, index, fault),
                "8-of-all-first" => (!is_8 as usize, index, fault),
                "openings-of-all-first" => (fault as usize, index, fault),
                "last-show-first" => (usize::MAX - index, 0, fault),
                _ => (index, 0, fault),
            }
        };
        match faults.into_iter().min_by_key(key) {
            Some((index, fault)) => Err(self.refusal(&shows[index], fault)),
            None => Ok(()),
        }
    }

    fn is_unknown(&self, letter: u8) -> bool {
        let letters = match self.kind {
            "9-by-32" => MOST,
            "9-above-s" => self.sheet[0] as usize + 1,
            _ => self.sheet[0] as usize,
        };
        letter as usize >= letters
    }

    fn refusal(&self, show: &Show, fault: Fault) -> Refusal {
        let loop_place = show.place + show.prefix.len();
        if fault == Fault::NoLoop {
            let place = match self.kind {
                "8-at-0" => 0,
                "8-in-the-show" => loop_place - show.place,
                "8-at-the-lengths" => show.place - HEADER,
                "8-at-the-end" => self.cart.len(),
                _ => loop_place,
            };
            let part = match self.kind {
                "8-of-the-opening" => Part::Opening,
                "8-of-second" => Part::Second,
                _ => Part::Loop,
            };
            return Refusal { number: 8, part, place };
        }
        let (start, word, part, other) = match fault {
            Fault::Opening => (show.place, show.prefix, Part::Opening, Part::Loop),
            _ => (loop_place, show.period, Part::Loop, Part::Opening),
        };
        let mut unknown = (0..word.len()).filter(|&at| self.is_unknown(word[at]));
        let at = if self.kind == "9-at-the-last" { unknown.last() } else { unknown.next() };
        let at = at.expect("there is a fault");
        let place = match self.kind {
            "9-in-the-show" => start + at - show.place,
            "9-in-the-part" => at,
            "9-after-the-count" => start + at - 1,
            _ => start + at,
        };
        let part = match self.kind {
            "9-parts-exchanged" => other,
            "9-of-second" => Part::Second,
            _ => part,
        };
        Refusal { number: 9, part, place }
    }
}
