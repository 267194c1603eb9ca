//! Holds the program `durations` to the independent implementation: runs it on sheets' texts and shows at random, and compares all that it
//! prints and says.
//!
//! durations_runs PROGRAM [RUNS]

use outside::driver::random_seconds::seconds;
use outside::driver::random_sheets::in_order;
use outside::driver::random_text::damaged;
use outside::printed;
use outside::program_runs::{self, Run};
use outside::random::Random;
use outside::random_files::{file, show_file};
use outside::sheet::{Part, Sheet};
use outside::sheet_text::text_of;
use std::process::ExitCode;

const NAMES: [&str; 2] = ["sheet.txt", "show.txt"];

/// Each must come up: a running sheet, or number and part of a refusal; a scene without seconds by the level.
const KINDS: [&str; 24] = [
    "written",
    "written, no opening",
    "refused 25 first",
    "refused 25 second",
    "refused 2 first",
    "refused 3 first",
    "refused 4 first",
    "refused 5 first",
    "refused 6 first",
    "refused 10 first",
    "refused 11 first",
    "refused 12 first",
    "refused 14 first",
    "refused 11 second",
    "refused 9 second",
    "refused 8 second",
    "refused 21 opening",
    "refused 21 loop",
    "refused 9 opening, level 3",
    "refused 9 loop, level 3",
    "refused 9 opening, level 4",
    "refused 9 loop, level 4",
    "no sheet",
    "no show",
];

fn main() -> ExitCode {
    program_runs::main(1, &KINDS, |random| {
        let (letters, sheet) = sheet_file(random);
        let text = show_file(random, letters);
        let due = printed::durations(sheet.as_deref().unwrap_or_default(), text.as_deref().unwrap_or_default());
        let kind = match (&sheet, &text) {
            (None, _) if due.ends_with("11 first 0\n") => "no sheet".to_string(),
            (_, None) if due.ends_with("11 second 0\n") => "no show".to_string(),
            _ => kind(&due, sheet.as_deref().unwrap_or_default()),
        };
        let run = Run::reading("durations", [(NAMES[0], sheet), (NAMES[1], text)], due, kind);
        let end_of_options = random.once_in(4).then_some("--");
        Ok(Run { words: end_of_options.into_iter().chain(NAMES).collect(), ..run })
    })
}

/// The text of a sheet, mostly of level four, now and then damaged; and how many letters the sheet has.
fn sheet_file(random: &mut Random) -> (usize, Option<Vec<u8>>) {
    let draft = in_order(random);
    let (letters, packed) = (draft.letters, draft.pack());
    let sheet = Sheet::read(&packed, Part::First).expect("the sheet is in order");
    let level = random.pick(&[3, 4, 4, 4]);
    let mut text = text_of(level, &sheet, &seconds(random, letters)).into_bytes();
    if random.once_in(3) {
        text = damaged(random, text);
    }
    (letters, file(random, text, b"0 0 0 0\n"))
}

fn kind(due: &str, sheet: &[u8]) -> String {
    let Some(refusal) = due.strip_prefix("refused part place\n") else {
        let no_opening = due.starts_with("part scene seconds\nloop ");
        return if no_opening { "written, no opening" } else { "written" }.to_string();
    };
    let words: Vec<&str> = refusal.split(' ').collect();
    let level = match (words[0], words[1]) {
        ("9", "opening" | "loop") => format!(", level {}", sheet[20] as char),
        _ => String::new(),
    };
    format!("refused {} {}{level}", words[0], words[1])
}
