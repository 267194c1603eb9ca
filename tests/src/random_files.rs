//! Files at random for the programs that read a sheet and a show.

use crate::driver::random_show::{any_lasso, damaged};
use crate::printed::{LONGEST_FILE, SCENES};
use crate::random::Random;
use crate::sheet::MOST;
use crate::show_text::text_of;

/// A file, or none, now and then about as long as the longest that is read: it goes on with these bytes again and again.
pub fn file(random: &mut Random, mut bytes: Vec<u8>, more: &[u8]) -> Option<Vec<u8>> {
    match random.below(32) {
        0 => None,
        1 => {
            bytes.extend(more.iter().cycle().take(LONGEST_FILE));
            bytes.truncate(LONGEST_FILE + random.below(2));
            Some(bytes)
        }
        _ => Some(bytes),
    }
}

/// The text of a show of letters below a count, now and then with other letters, with very many, or damaged.
pub fn show_file(random: &mut Random, letters: usize) -> Option<Vec<u8>> {
    let (mut prefix, mut period) = any_lasso(random, letters);
    for part in [&mut prefix, &mut period] {
        // Letters that the sheet has not, but a text may have.
        let letters = if random.once_in(10) { MOST } else { letters };
        if random.once_in(20) {
            part.resize(SCENES - 1 + random.below(4), random.below(letters) as u8);
        } else if letters == MOST {
            *part = random.word(part.len(), letters);
        }
    }
    let mut text = text_of(&prefix, &period).into_bytes();
    if random.once_in(4) {
        text = damaged(random, text);
    }
    file(random, text, b"loop 0\n")
}
