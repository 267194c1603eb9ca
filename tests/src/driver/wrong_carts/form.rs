//! Counts that are refused or taken, the place or part of 27 and 28, lengths read otherwise, parts exchanged, bytes
//! left over or missing that are taken.

use super::{Call, Found};
use crate::cart::{Show, HEADER};
use crate::sheet::{Part, Refusal};

pub const KINDS: [&str; 18] = [
    "64-refused",
    "65-taken",
    "any-count-taken",
    "0-taken",
    "27-at-the-count",
    "27-of-first",
    "28-at-0",
    "28-at-the-show",
    "28-after-the-count",
    "28-of-first",
    "high-byte-first",
    "low-byte-alone",
    "lengths-exchanged",
    "scenes-exchanged",
    "left-over-taken",
    "left-over-dropped",
    "scenes-missing-taken",
    "shows-missing-taken",
];

impl<'a> Call<'a> {
    fn count(&self) -> usize {
        self.cart.first().map_or(0, |&count| count as usize)
    }

    pub fn judge_count(&self) -> Result<(), Refusal> {
        let (least, most) = match self.kind {
            "64-refused" => (1, 63),
            "65-taken" => (1, 65),
            "any-count-taken" => (1, 255),
            "0-taken" => (0, 64),
            _ => (1, 64),
        };
        let place = if self.kind == "27-at-the-count" { self.count() } else { 0 };
        let part = if self.kind == "27-of-first" { Part::First } else { Part::Second };
        if (least..=most).contains(&self.count()) {
            return Ok(());
        }
        Err(Refusal { number: 27, part, place })
    }

    pub fn judge_length(&self) -> Result<(), Refusal> {
        let Found { shows, end, is_whole } = self.found();
        let takes = match self.kind {
            "left-over-taken" | "left-over-dropped" => shows.len() == self.count(),
            "shows-missing-taken" => end == self.cart.len() && !shows.is_empty(),
            _ => false,
        };
        if is_whole || takes {
            return Ok(());
        }
        Err(self.refused_28(end))
    }

    /// Of a cart whose whole shows end at some place.
    pub fn refused_28(&self, end: usize) -> Refusal {
        let place = match self.kind {
            "28-at-0" => 0,
            "28-at-the-show" => end,
            "28-after-the-count" => self.cart.len().saturating_sub(1),
            _ => self.cart.len(),
        };
        let part = if self.kind == "28-of-first" { Part::First } else { Part::Second };
        Refusal { number: 28, part, place }
    }

    pub fn found(&self) -> Found<'a> {
        let mut found = Found { shows: Vec::new(), end: self.cart.len().min(1), is_whole: false };
        while found.shows.len() < self.count() {
            let Some(show) = self.show_at(found.end) else { return found };
            found.end = show.place + show.prefix.len() + show.period.len();
            found.shows.push(show);
        }
        found.is_whole = found.end == self.cart.len();
        found
    }

    fn show_at(&self, at: usize) -> Option<Show<'a>> {
        let (&[a, b, c, d], rest) = self.cart[at..].split_first_chunk::<HEADER>()?;
        let [before, turn] = match self.kind {
            "high-byte-first" => [[b, a], [d, c]],
            "low-byte-alone" => [[a, 0], [c, 0]],
            "lengths-exchanged" => [[c, d], [a, b]],
            _ => [[a, b], [c, d]],
        }
        .map(|bytes| u16::from_le_bytes(bytes) as usize);
        let scenes = match rest.get(..before + turn) {
            None if self.kind == "scenes-missing-taken" => rest,
            scenes => scenes?,
        };
        let place = at + HEADER;
        if self.kind == "scenes-exchanged" {
            let (period, prefix) = scenes.split_at(turn);
            return Some(Show { place, prefix, period });
        }
        let (prefix, period) = scenes.split_at(before.min(scenes.len()));
        Some(Show { place, prefix, period })
    }
}
