//! Holds `compare FIRST SECOND` to the independent implementation on sheets in any form, packed, as text or drawn, good ones and damaged
//! ones: all that it prints and says.
//!
//! forms_runs PROGRAM [RUNS]

use outside::forms::{form, in_a_form, packed};
use outside::inclusion::Search;
use outside::mix::sheet_pair;
use outside::printed::{self, not_too_long, refused};
use outside::program_runs::{self, Run};
use outside::sheet::{Part, Refusal};
use std::process::ExitCode;

/// Each must come up.
const KINDS: [&str; 16] = [
    "packed in packed",
    "packed in text",
    "packed in drawn",
    "text in packed",
    "text in text",
    "text in drawn",
    "drawn in packed",
    "drawn in text",
    "drawn in drawn",
    "packed refused as first",
    "packed refused as second",
    "text refused as first",
    "text refused as second",
    "drawn refused as first",
    "drawn refused as second",
    "refused",
];

fn main() -> ExitCode {
    let mut search = Search::default();
    program_runs::main(1, &KINDS, |random| {
        let (_, first, second) = sheet_pair(random);
        let (first, second) = (in_a_form(random, first), in_a_form(random, second));
        let due = compared(&mut search, &first, &second).unwrap_or_else(refused);
        let kind = kind(&due, &first, &second);
        let names = [named(&first, ["first.txt", "first.packed"]), named(&second, ["second.txt", "second.packed"])];
        let run = Run::reading("compare", [(names[0], Some(first)), (names[1], Some(second))], due, kind);
        Ok(Run { words: names.to_vec(), ..run })
    })
}

fn named(bytes: &[u8], [text, packed]: [&'static str; 2]) -> &'static str {
    if form(bytes) == "packed" {
        packed
    } else {
        text
    }
}

fn compared(search: &mut Search, first: &[u8], second: &[u8]) -> Result<String, Refusal> {
    not_too_long(Part::First, first)?;
    not_too_long(Part::Second, second)?;
    let (first, second) = (packed(Part::First, first)?, packed(Part::Second, second)?);
    Ok(printed::comparison(search, &first, &second))
}

fn kind(due: &str, first: &[u8], second: &[u8]) -> String {
    let Some(line) = due.strip_prefix("refused part place\n") else {
        return format!("{} in {}", form(first), form(second));
    };
    match line.split(' ').collect::<Vec<_>>()[..] {
        ["7", ..] => "refused".to_string(),
        [_, "first", _] => format!("{} refused as first", form(first)),
        [_, "second", _] => format!("{} refused as second", form(second)),
        _ => "refused".to_string(),
    }
}
