//! A sheet's file in any form, packed, as text or drawn, which its first byte tells.

use crate::buchi_text::{self, automaton_of};
use crate::driver::{random_automaton, random_text};
use crate::random::Random;
use crate::said::text_place;
use crate::sheet::{Part, Refusal, Sheet};
use crate::sheet_text::{sheet_of, text_of};

/// The form that the first byte tells.
pub fn form(bytes: &[u8]) -> &'static str {
    match bytes.first() {
        Some(b'l') => "text",
        Some(b'[') => "drawn",
        _ => "packed",
    }
}

/// The packed sheet that a file is; a text that is refused has the part of its place in the call.
pub fn packed(part: Part, bytes: &[u8]) -> Result<Vec<u8>, Refusal> {
    match form(bytes) {
        "text" => sheet_of(bytes).map(|written| written.sheet.pack()),
        "drawn" => automaton_of(bytes).map(|automaton| automaton.family().pack()),
        _ => Sheet::read(bytes, part).map(|_| bytes.to_vec()),
    }
    .map_err(|refusal| Refusal { part, ..refusal })
}

/// A place of a sheet's file: by line and column where it is lines of text, else by byte.
pub fn place_in(name: &str, bytes: &[u8], place: usize) -> String {
    match form(bytes) {
        "packed" => format!("{name}: byte {place}"),
        _ => text_place(name, bytes, place),
    }
}

/// A good sheet in one of its forms, or an automaton with as many letters; a text is damaged now and then.
pub fn in_a_form(random: &mut Random, packed: Vec<u8>) -> Vec<u8> {
    let Ok(sheet) = Sheet::read(&packed, Part::First) else { return packed };
    match random.below(3) {
        0 => packed,
        1 => {
            let seconds: Vec<u16> = (0..sheet.letters).map(|_| random.between(1, 999) as u16).collect();
            let text = text_of(random.between(3, 4), &sheet, &seconds).into_bytes();
            damaged(random, text, random_text::damaged)
        }
        _ => {
            let states = random.between(1, 4);
            let text = buchi_text::text_of(&random_automaton::of_sizes(random, sheet.letters, states)).into_bytes();
            damaged(random, text, random_automaton::damaged)
        }
    }
}

fn damaged(random: &mut Random, text: Vec<u8>, damage: fn(&mut Random, Vec<u8>) -> Vec<u8>) -> Vec<u8> {
    if random.once_in(5) {
        damage(random, text)
    } else {
        text
    }
}
