//! Other room, other verdicts, another index, other bytes copied or told.

use super::{Call, Found};
use crate::cart::{Answer, Show, HEADER};
use crate::lent::{fill, room};
use crate::naive::Family;
use crate::sheet::{Part, Refusal};
use crate::verdict::verdict;

pub const KINDS: [&str; 31] = [
    "room-told-as-lent",
    "room-for-one-more",
    "room-for-one-fewer",
    "21-of-second",
    "filled-though-short",
    "verdicts-before-21",
    "show-by-show",
    "last-rejected",
    "first-show-for-all",
    "last-show-for-all",
    "first-show-not-judged",
    "last-show-not-judged",
    "64th-not-judged",
    "one-accepted-suffices",
    "never-rejected",
    "always-rejected",
    "judged-after-the-opening",
    "opening-ignored",
    "openings-joined",
    "verdicts-turned",
    "index-from-1",
    "index-from-the-end",
    "index-as-place",
    "rejected-counted",
    "copied-though-rejected",
    "copied-up-to-the-rejected",
    "nothing-copied",
    "count-not-copied",
    "copied-to-the-end",
    "tail-cleared",
    "count-told",
];

impl Call<'_> {
    pub fn judge_room(&self, out: &mut [u8]) -> Result<(), Refusal> {
        let needed = match self.kind {
            "room-for-one-more" => self.cart.len() + 1,
            "room-for-one-fewer" => self.cart.len() - 1,
            _ => self.cart.len(),
        };
        let fits = room(Part::Out, out.len(), needed);
        if fits.is_err() && self.kind == "filled-though-short" {
            out.copy_from_slice(&self.cart[..out.len()]);
        }
        match self.kind {
            "verdicts-before-21" => Ok(()),
            "room-told-as-lent" => fits.map_err(|refusal| Refusal { place: out.len(), ..refusal }),
            "21-of-second" => fits.map_err(|refusal| Refusal { part: Part::Second, ..refusal }),
            _ => fits,
        }
    }

    /// The verdict on one of the shows; what is refused is not accepted.
    pub fn accepts(&self, shows: &[Show], index: usize) -> bool {
        let Show { prefix, period, .. } = shows[index];
        let accepted = |prefix: &[u8]| verdict(self.sheet, prefix, period).is_ok_and(|given| given.accepted);
        match self.kind {
            "judged-after-the-opening" => {
                let family = Family::unpack(self.sheet);
                let standing = family.standing(prefix, period);
                family.is_marked(standing.waits as u8, standing.ends as u8)
            }
            "opening-ignored" => accepted(&[]),
            "openings-joined" => {
                let openings: Vec<&[u8]> = shows[..=index].iter().map(|show| show.prefix).collect();
                accepted(&openings.concat())
            }
            "verdicts-turned" => !accepted(prefix),
            _ => accepted(prefix),
        }
    }

    /// The answer where nothing is refused.
    pub fn answer(&self, found: &Found, out: &mut [u8]) -> Result<Answer, Refusal> {
        let shows = &found.shows;
        let rejected: Vec<usize> = (0..shows.len()).filter(|&at| !self.accepts(shows, at)).collect();
        let mut judged = rejected.iter().copied();
        let index = match self.kind {
            "last-rejected" => judged.last(),
            "first-show-for-all" => judged.find(|&at| at == 0),
            "last-show-for-all" => judged.find(|&at| at + 1 == shows.len()),
            "first-show-not-judged" => judged.find(|&at| at > 0),
            "last-show-not-judged" => judged.find(|&at| at + 1 < shows.len()),
            "64th-not-judged" => judged.find(|&at| at < 63),
            "one-accepted-suffices" => judged.next().filter(|_| rejected.len() == shows.len()),
            "never-rejected" => None,
            "always-rejected" => Some(rejected.first().copied().unwrap_or(0)),
            _ => judged.next(),
        };
        if let Some(index) = index {
            let header = shows[index].place - HEADER;
            match self.kind {
                "copied-though-rejected" => out[..self.cart.len()].copy_from_slice(self.cart),
                "copied-up-to-the-rejected" => out[..header].copy_from_slice(&self.cart[..header]),
                _ => {}
            }
            return Ok(Answer::Rejected(match self.kind {
                "index-from-1" => index + 1,
                "index-from-the-end" => shows.len() - 1 - index,
                "index-as-place" => header,
                "rejected-counted" => rejected.len(),
                _ => index,
            }));
        }
        self.copy(found, out)
    }

    fn copy(&self, found: &Found, out: &mut [u8]) -> Result<Answer, Refusal> {
        let cart = if self.kind == "left-over-dropped" { &self.cart[..found.end] } else { self.cart };
        match self.kind {
            "nothing-copied" => {}
            "room-for-one-fewer" => {
                let length = out.len().min(cart.len());
                out[..length].copy_from_slice(&cart[..length]);
            }
            "count-not-copied" => out[..cart.len() - 1].copy_from_slice(&cart[1..]),
            "copied-to-the-end" => {
                let start = out.len() - cart.len();
                out[start..].copy_from_slice(cart);
            }
            _ => drop(fill(out, cart)?),
        }
        if self.kind == "tail-cleared" {
            out[cart.len()..].fill(0);
        }
        Ok(Answer::Loaded(if self.kind == "count-told" { found.shows.len() } else { cart.len() }))
    }
}
