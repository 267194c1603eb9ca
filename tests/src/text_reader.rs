//! A text and the place that reading has reached: it goes from left to right, so that the first fault met is the one at the smallest place.

use crate::numeral::number;
use crate::sheet::{Part, Refusal};
use std::ops::RangeInclusive;

pub struct Reader<'a> {
    text: &'a [u8],
    place: usize,
}

impl<'a> Reader<'a> {
    pub fn new(text: &'a [u8]) -> Self {
        Reader { text, place: 0 }
    }

    /// The byte that stands here; none at the text's end.
    pub fn here(&self) -> Option<u8> {
        self.text.get(self.place).copied()
    }

    /// Bytes that must stand here: refusal 11 at the first that does not, or at the length where the text ends.
    pub fn literal(&mut self, due: &str) -> Result<(), Refusal> {
        for &byte in due.as_bytes() {
            if self.here() != Some(byte) {
                return self.refuse(11);
            }
            self.place += 1;
        }
        Ok(())
    }

    /// A number: refusal 11 for its form, else the given one, at its first byte, if it is out of range.
    pub fn number(&mut self, refusal: usize, range: RangeInclusive<usize>) -> Result<usize, Refusal> {
        Ok(self.judged(|value| (!range.contains(&value)).then_some(refusal))?.0)
    }

    /// A number and the place of its first byte: refusal 11 there for its form, else the one that its value has, if any.
    pub fn judged(&mut self, refusal: impl Fn(usize) -> Option<usize>) -> Result<(usize, usize), Refusal> {
        let place = self.place;
        let (value, next) = number(self.text, place).or_else(|place| refuse(11, place))?;
        if let Some(refusal) = refusal(value) {
            return self.refuse(refusal);
        }
        self.place = next;
        Ok((value, place))
    }

    pub fn end(&self) -> Result<(), Refusal> {
        match self.here() {
            Some(_) => self.refuse(11),
            None => Ok(()),
        }
    }

    /// A refusal at the place reached.
    pub fn refuse<T>(&self, number: usize) -> Result<T, Refusal> {
        refuse(number, self.place)
    }
}

/// A lone text is "first".
pub fn refuse<T>(number: usize, place: usize) -> Result<T, Refusal> {
    Err(Refusal { number, part: Part::First, place })
}
