//! read-show and write-show.

use crate::driver::calls::{filled, refused, room_needed};
use crate::driver::line::{byte_slices, print, NoCall};
use crate::driver::random_line::{lent, spelled};
use crate::driver::random_show::{any_lasso, damaged, faulty_lasso};
use crate::inclusion::Search;
use crate::random::Random;
use crate::sheet::MOST;
use crate::show_text::{self, lasso_of, text_of};

/// What was read is written as the same text; what was written is read as the same lasso.
pub fn read_show(words: &[&[u8]], _: &mut Search) -> Result<String, NoCall> {
    let [text, mut prefix, mut period] = byte_slices(words)?;
    let answer = match show_text::read(&text, &mut prefix, &mut period) {
        Ok((before, turn)) => {
            assert_eq!(text_of(&prefix[..before], &period[..turn]).as_bytes(), text);
            format!("filled {before} {turn}")
        }
        Err(refusal) => refused(refusal),
    };
    Ok(format!("{answer} | {} {}", print(&prefix), print(&period)))
}

pub fn write_show(words: &[&[u8]], _: &mut Search) -> Result<String, NoCall> {
    let [prefix, period, mut out] = byte_slices(words)?;
    let result = show_text::write(&prefix, &period, &mut out);
    if let Ok(length) = result {
        assert_eq!(lasso_of(&out[..length]), Ok((prefix, period)));
    }
    let answer = filled(result);
    Ok(format!("{answer} | {}", print(&out)))
}

pub fn random_read_show(random: &mut Random, _: &mut Search) -> String {
    let (prefix, period) = any_lasso(random, MOST);
    let mut text = text_of(&prefix, &period).into_bytes();
    if random.once_in(2) {
        text = damaged(random, text);
    }
    let [prefix, period] = [prefix, period].map(|letters| lent(random, letters.len()));
    [text, prefix, period].map(|slice| spelled(random, &slice)).join(" ")
}

pub fn random_write_show(random: &mut Random, _: &mut Search) -> String {
    let (prefix, period) = if random.once_in(3) { faulty_lasso(random, MOST) } else { any_lasso(random, MOST) };
    let needed = room_needed(show_text::write(&prefix, &period, &mut []));
    let out = lent(random, needed);
    [prefix, period, out].map(|slice| spelled(random, &slice)).join(" ")
}
