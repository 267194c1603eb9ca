//! import.

use crate::buchi_text::{automaton_of, import as imported, text_of};
use crate::driver::calls::one_slice;
use crate::driver::line::NoCall;
use crate::driver::random_automaton::{any_automaton, damaged, too_large};
use crate::driver::random_line::{lent, spelled};
use crate::inclusion::Search;
use crate::random::Random;

/// What was read is written as the same text.
pub fn import(words: &[&[u8]], _: &mut Search) -> Result<String, NoCall> {
    one_slice(words, |text, out| {
        let length = imported(text, out)?;
        assert_eq!(text_of(&automaton_of(text)?).as_bytes(), text);
        Ok(length)
    })
}

pub fn random_import(random: &mut Random, _: &mut Search) -> String {
    let automaton = if random.once_in(24) { too_large(random) } else { any_automaton(random) };
    let needed = automaton.family().pack().len();
    let mut text = text_of(&automaton).into_bytes();
    if random.once_in(2) {
        text = damaged(random, text);
    }
    let out = lent(random, needed);
    [text, out].map(|slice| spelled(random, &slice)).join(" ")
}
