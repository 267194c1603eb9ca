//! Holds the program `verdict` to the independent implementation: runs it on sheets and shows at random, and compares all that it prints.
//!
//! verdict_runs PROGRAM [RUNS]

use outside::driver::random_sheets::{in_order, sheet};
use outside::printed;
use outside::program_runs::{self, Run};
use outside::random::Random;
use outside::random_files::{file, show_file};
use outside::sheet::MOST;
use std::process::ExitCode;

/// Each must come up: the word of a verdict, or number and part of a refusal.
const KINDS: [&str; 21] = [
    "accepted",
    "accepted, not closing",
    "rejected",
    "rejected, not closing",
    "refused 25 first",
    "refused 25 second",
    "refused 1 first",
    "refused 2 first",
    "refused 3 first",
    "refused 4 first",
    "refused 5 first",
    "refused 6 first",
    "refused 11 second",
    "refused 9 second",
    "refused 8 second",
    "refused 21 opening",
    "refused 21 loop",
    "refused 9 opening",
    "refused 9 loop",
    "no sheet",
    "no show",
];

fn main() -> ExitCode {
    program_runs::main(1, &KINDS, |random| {
        let sheet = sheet_file(random);
        let letters = sheet.as_ref().and_then(|bytes| bytes.first()).map_or(1, |&letters| letters as usize);
        let text = show_file(random, letters.clamp(1, MOST));
        let due = printed::verdict(sheet.as_deref().unwrap_or_default(), text.as_deref().unwrap_or_default());
        let kind = match (&sheet, &text) {
            (None, _) if due.ends_with("1 first 0\n") => "no sheet".to_string(),
            (_, None) if due.ends_with("11 second 0\n") => "no show".to_string(),
            _ => kind(&due)?,
        };
        Ok(Run::reading("verdict", [("first.sheet", sheet), ("show.txt", text)], due, kind))
    })
}

fn sheet_file(random: &mut Random) -> Option<Vec<u8>> {
    let sheet = if random.once_in(3) { sheet(random) } else { in_order(random).pack() };
    file(random, sheet, b"\0")
}

/// What kind of answer a text is, by the words of its second line.
fn kind(printed: &str) -> Result<String, String> {
    let words: Vec<&str> = printed.lines().nth(1).unwrap_or_default().split(' ').collect();
    match words.as_slice() {
        [number, part, _] => Ok(format!("refused {number} {part}")),
        [word, "0", "1", _, _] => Ok(word.to_string()),
        [word, _, _, _, _] => Ok(format!("{word}, not closing")),
        _ => Err(format!("no answer: {printed}")),
    }
}
