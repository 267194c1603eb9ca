//! The cursor: which part of a lasso plays, and the position in it.

use crate::sheet::{Part, Refusal};

#[derive(Clone, Copy, Debug, PartialEq, Eq)]
pub enum Playing {
    Prefix,
    Period,
}

#[derive(Clone, Copy, Debug, PartialEq, Eq)]
pub struct Cursor {
    pub playing: Playing,
    pub position: u64,
}

/// A cursor at the start of the prefix, or of the period where the prefix is empty.
pub fn start(prefix: &[u8]) -> Cursor {
    let playing = if prefix.is_empty() { Playing::Period } else { Playing::Prefix };
    Cursor { playing, position: 0 }
}

/// The letter that the cursor passes, and where it stands then.
pub fn step(cursor: Cursor, prefix: &[u8], period: &[u8]) -> Result<(u8, Cursor), Refusal> {
    let (part, at) = judge(cursor, prefix, period)?;
    let further = if at + 1 < part.len() {
        Cursor { playing: cursor.playing, position: cursor.position + 1 }
    } else {
        Cursor { playing: Playing::Period, position: 0 }
    };
    Ok((part[at], further))
}

/// What is left of the part that plays: empty where a step is refused.
pub fn rest<'a>(cursor: Cursor, prefix: &'a [u8], period: &'a [u8]) -> &'a [u8] {
    match judge(cursor, prefix, period) {
        Ok((part, at)) => &part[at..],
        Err(_) => &prefix[..0],
    }
}

/// Refusals 8 and 24; else the part that plays and a position in it.
fn judge<'a>(cursor: Cursor, prefix: &'a [u8], period: &'a [u8]) -> Result<(&'a [u8], usize), Refusal> {
    if period.is_empty() {
        return Err(Refusal { number: 8, part: Part::Loop, place: 0 });
    }
    let part = match cursor.playing {
        Playing::Prefix => prefix,
        Playing::Period => period,
    };
    if cursor.position >= part.len() as u64 {
        return Err(Refusal { number: 24, part: Part::Cursor, place: cursor.position as usize });
    }
    Ok((part, cursor.position as usize))
}

#[cfg(test)]
mod tests {
    use super::*;

    #[test]
    fn the_letters_passed_are_the_run() {
        for (prefix, period) in [(&[5][..], &[7, 8][..]), (&[], &[1]), (&[9, 9, 3], &[0]), (&[], &[4, 5, 6])] {
            let mut cursor = start(prefix);
            for due in prefix.iter().chain(period.iter().cycle()).take(40) {
                let left = rest(cursor, prefix, period);
                let (letter, further) = step(cursor, prefix, period).unwrap();
                assert_eq!((letter, left[0]), (*due, *due));
                cursor = further;
            }
        }
    }
}
