//! Holds the program `cart` to the independent implementation: runs it on a sheet in any form and up to 64 shows at
//! random, and compares all that it prints and says, and every file there afterwards.
//!
//! cart_runs PROGRAM [RUNS]

use outside::buchi_text;
use outside::cart::MOST_SHOWS;
use outside::driver::random_cart::some_shows;
use outside::driver::random_sheets::{faulty, in_order};
use outside::driver::{random_automaton, random_text};
use outside::forms::form;
use outside::loading::{cart, File};
use outside::naive::Lasso;
use outside::packing::Done;
use outside::program_runs::{self, Files, Left, Run};
use outside::random::Random;
use outside::random_files::{file, show_file};
use outside::rows::complemented;
use outside::sheet::{Part, Sheet};
use outside::{sheet_text, show_text};
use std::process::ExitCode;

const SHEET: &str = "the sheet";
const CART: &str = "a cart";
const SHOWS: [&str; 6] = ["show", "a show", "show.txt", "b", "c.show", "0"];

/// Each must come up.
const KINDS: [&str; 23] = [
    "made, packed",
    "made, text",
    "made, drawn",
    "made, 64 shows",
    "rejected, the first",
    "rejected, a later one",
    "one file, the sheet",
    "one file, a show",
    "refused 25 first",
    "refused 25 second",
    "packed refused",
    "text refused",
    "drawn refused",
    "refused 11 second",
    "refused 9 second",
    "refused 8 second",
    "refused 21 opening",
    "refused 21 loop",
    "refused 9 opening",
    "refused 9 loop",
    "refused 9 in a later show",
    "no sheet",
    "no show",
];

fn main() -> ExitCode {
    program_runs::main(1, &KINDS, |random| {
        let Given { sheet, shows } = given(random);
        let named = names(random, shows.len());
        let target = match random.below(24) {
            0 => SHEET,
            1 => named[random.below(named.len())],
            _ => CART,
        };

        let mut files: Files = [(SHEET, sheet.clone())]
            .into_iter()
            .chain(SHOWS.into_iter().zip(shows))
            .filter_map(|(name, bytes)| Some((name, bytes?)))
            .collect();
        let read: Vec<File> = named.iter().map(|&name| (name, files.get(name).map(Vec::as_slice))).collect();
        let mut done = cart((SHEET, sheet.as_deref()), &read);
        let kind = kind(&done, (SHEET, sheet.as_deref()), &read, target);
        if target != CART && !done.made.is_empty() {
            let stderr = format!("cart: CART and {target} are one file, nothing is made\n");
            done = Done { stdout: String::new(), stderr, made: Vec::new() };
        }
        // A target that is there already is made anew, or stays as it is.
        if random.once_in(3) {
            files.insert(CART, random.bytes(3000));
        }
        let mut due = Left { stdout: done.stdout, stderr: done.stderr, files: files.clone() };
        due.files.extend(done.made.into_iter().map(|cart| (target, cart)));
        let end_of_options = random.once_in(4).then_some("--");
        let words = end_of_options.into_iter().chain([SHEET, target]).chain(named).collect();
        Ok(Run { program: 0, words, files, due, kind })
    })
}

/// The bytes of the sheet's file and of some shows; none where a file is missing.
struct Given {
    sheet: Option<Vec<u8>>,
    shows: Vec<Option<Vec<u8>>>,
}

fn given(random: &mut Random) -> Given {
    let (sheet, accepted, rejected) = sheet_and_shows(random);
    let letters =
        accepted.iter().chain(&rejected).flat_map(|(_, period)| period).max().map_or(1, |&most| most as usize + 1);
    let count = random.between(1, SHOWS.len());
    let bad = if random.once_in(4) { random.below(count) } else { count };
    let at_fault = if random.once_in(3) { random.below(count) } else { count };
    let shows = (0..count).map(|at| {
        if at == at_fault {
            return show_file(random, letters);
        }
        let from = if accepted.is_empty() || at == bad && !rejected.is_empty() { &rejected } else { &accepted };
        let (prefix, period) = &from[random.below(from.len())];
        Some(show_text::text_of(prefix, period).into_bytes())
    });
    let shows = shows.collect();
    Given { sheet: file(random, sheet, b"\0"), shows }
}

/// A sheet in some form, now and then with faults; and shows that it accepts, mostly, and shows that it rejects.
fn sheet_and_shows(random: &mut Random) -> (Vec<u8>, Vec<Lasso>, Vec<Lasso>) {
    let damages = random.once_in(6);
    if random.once_in(4) {
        let (letters, states) = (random.between(1, 4), random.between(1, 4));
        let automaton = random_automaton::of_sizes(random, letters, states);
        let (accepted, rejected) = some_shows(random, &automaton.family().pack(), false);
        let text = buchi_text::text_of(&automaton).into_bytes();
        let text = if damages { random_automaton::damaged(random, text) } else { text };
        return (text, accepted, rejected);
    }
    let mut packed = in_order(random).pack();
    let (mut accepted, mut rejected) = some_shows(random, &packed, false);
    if accepted.len() < rejected.len() {
        packed = complemented(&packed);
        std::mem::swap(&mut accepted, &mut rejected);
    }
    if random.once_in(3) {
        let sheet = Sheet::read(&packed, Part::First).expect("the sheet is in order");
        let seconds: Vec<u16> = (0..sheet.letters).map(|_| random.between(1, 999) as u16).collect();
        let text = sheet_text::text_of(random.between(3, 4), &sheet, &seconds).into_bytes();
        let text = if damages { random_text::damaged(random, text) } else { text };
        return (text, accepted, rejected);
    }
    (if damages { faulty(random) } else { packed }, accepted, rejected)
}

/// The names of so many shows: each once or, now and then, some of them again, up to 64 in all.
fn names(random: &mut Random, shows: usize) -> Vec<&'static str> {
    let any = random.between(1, MOST_SHOWS);
    let count = if random.once_in(4) { random.pick(&[shows + 1, any, MOST_SHOWS]) } else { shows };
    SHOWS[..shows].iter().copied().cycle().take(count).collect()
}

fn kind(done: &Done, sheet: File, shows: &[File], target: &str) -> String {
    let form = form(sheet.1.unwrap_or_default());
    if !done.made.is_empty() {
        return match target {
            CART if shows.len() == MOST_SHOWS => "made, 64 shows".to_string(),
            CART => format!("made, {form}"),
            SHEET => "one file, the sheet".to_string(),
            _ => "one file, a show".to_string(),
        };
    }
    if let Some(index) = done.stdout.strip_prefix("rejected\n") {
        return format!("rejected, {}", if index == "0\n" { "the first" } else { "a later one" });
    }
    let words: Vec<&str> = done.stdout.lines().nth(1).unwrap_or_default().split(' ').collect();
    match words[..] {
        ["1", "first", "0"] if sheet.1.is_none() => "no sheet".to_string(),
        ["25", "first", _] => "refused 25 first".to_string(),
        [_, "first", _] => format!("{form} refused"),
        ["11", "second", "0"] if shows.iter().any(|show| show.1.is_none()) => "no show".to_string(),
        ["9", "opening" | "loop", _] if !done.stderr.starts_with(&format!("{}:", shows[0].0)) => {
            "refused 9 in a later show".to_string()
        }
        [number, part, _] => format!("refused {number} {part}"),
        _ => panic!("a refusal has three words: {}", done.stdout),
    }
}
