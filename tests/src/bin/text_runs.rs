//! Holds the programs `pack` and `unpack` to the independent implementation: sheets at random are unpacked at either level, and what that
//! makes is packed again, mostly whole; all that is printed and made is compared.
//!
//! text_runs PACK UNPACK [RUNS]

use outside::case::letters_of;
use outside::driver::random_seconds::some_seconds;
use outside::driver::random_sheets::{in_order, sheet};
use outside::driver::random_text::damaged;
use outside::packing::{bytes_of, pack, unpack, Done};
use outside::printed::LONGEST_FILE;
use outside::program_runs::{self, Files, Left, Run};
use outside::random::Random;
use std::process::ExitCode;

/// Each must come up.
const KINDS: [&str; 26] = [
    "unpack: level three",
    "unpack: level four",
    "unpack: refused 25 first",
    "unpack: refused 25 second",
    "unpack: refused 1 first",
    "unpack: refused 2 first",
    "unpack: refused 3 first",
    "unpack: refused 4 first",
    "unpack: refused 5 first",
    "unpack: refused 6 first",
    "unpack: refused 21 seconds",
    "unpack: refused 14 seconds",
    "pack: level three",
    "pack: level three, no seconds",
    "pack: level four",
    "pack: level four, not kept",
    "pack: refused 25 first",
    "pack: refused 2 first",
    "pack: refused 3 first",
    "pack: refused 4 first",
    "pack: refused 5 first",
    "pack: refused 6 first",
    "pack: refused 10 first",
    "pack: refused 11 first",
    "pack: refused 12 first",
    "pack: refused 14 first",
];

fn main() -> ExitCode {
    // What the last run was: a sheet with its seconds, and the text made of it.
    let mut last: Option<(Vec<u8>, Option<Vec<u8>>, Vec<u8>)> = None;
    program_runs::main(2, &KINDS, |random| {
        if let Some((sheet, seconds, text)) = last.take() {
            return packed(random, &sheet, seconds.as_deref(), text);
        }
        let sheet_bytes = if random.once_in(4) { sheet(random) } else { in_order(random).pack() };
        let seconds = (!random.once_in(3)).then(|| seconds_bytes(random, letters_of(&sheet_bytes)));
        let (sheet_file, seconds_file) = (file(random, sheet_bytes), seconds.map(|bytes| file(random, bytes)));
        let seconds = seconds_file.as_ref().map(|bytes| bytes.clone().unwrap_or_default());
        let sheet = sheet_file.clone().unwrap_or_default();
        let done = unpack(&sheet, seconds.as_deref());
        let sheet_is_long = sheet.len() > LONGEST_FILE;
        let level = if seconds.is_some() { "level four" } else { "level three" };
        let kind = kind("unpack", &done, level);
        if let [text] = done.made.as_slice() {
            last = Some((sheet, seconds, text.clone()));
        }
        let files = [("sheet", sheet_file), ("seconds", seconds_file.flatten())];
        let words = if level == "level four" { vec!["sheet", "text", "seconds"] } else { vec!["sheet", "text"] };
        // A sheet that is too long is refused before the seconds are read.
        let read = if sheet_is_long { &words[..1] } else { &["sheet", "seconds"][..words.len() - 1] };
        let done = after_unread(read, &files, done);
        Ok(run(random, 1, words, files, &["text"], done, kind))
    })
}

/// Packs a text that was made of this sheet and these seconds, or that text with faults.
fn packed(random: &mut Random, sheet: &[u8], seconds: Option<&[u8]>, text: Vec<u8>) -> Result<Run, String> {
    let keeps = !random.once_in(3);
    let whole = !random.once_in(2);
    let text_file = if whole { Some(text) } else { file_of_faults(random, text) };
    let text = text_file.as_deref().unwrap_or_default();
    let done = pack(text, keeps);
    if whole && text.len() <= LONGEST_FILE {
        // Back to the sheet and, of what the third file held, to the cells that count.
        let counted = 2 * letters_of(sheet);
        let due = [Some(sheet), keeps.then(|| seconds.map_or(&[][..], |seconds| &seconds[..counted]))];
        if done.made != due.into_iter().flatten().collect::<Vec<_>>() {
            return Err(format!("another sheet, or other seconds, are had back from {}", text.escape_ascii()));
        }
    }
    let level = match (text.get(20), keeps) {
        (Some(b'3'), true) => "level three, no seconds",
        (Some(b'3'), false) => "level three",
        (_, true) => "level four",
        (_, false) => "level four, not kept",
    };
    let kind = kind("pack", &done, level);
    let (words, targets): (_, &[&'static str]) = if keeps {
        (vec!["text", "sheet", "seconds"], &["sheet", "seconds"])
    } else {
        (vec!["text", "sheet"], &["sheet"])
    };
    let files = [("text", text_file), ("other", None)];
    let done = after_unread(&["text"], &files, done);
    Ok(run(random, 0, words, files, targets, done, kind))
}

/// Before all else it is said of those that are read and are not there.
fn after_unread(read: &[&str], files: &[(&'static str, Option<Vec<u8>>); 2], done: Done) -> Done {
    let missing = files.iter().filter(|(name, bytes)| read.contains(name) && bytes.is_none());
    let unread: String = missing.map(|(name, _)| format!("{name}: No such file or directory\n")).collect();
    Done { stderr: unread + &done.stderr, ..done }
}

fn run(
    random: &mut Random,
    program: usize,
    words: Vec<&'static str>,
    files: [(&'static str, Option<Vec<u8>>); 2],
    targets: &[&'static str],
    done: Done,
    kind: String,
) -> Run {
    let mut files: Files = files.into_iter().filter_map(|(name, bytes)| Some((name, bytes?))).collect();
    // A target that is there already is made anew, or stays as it is.
    for target in targets {
        if random.once_in(3) {
            files.insert(target, random.bytes(3000));
        }
    }
    let mut due = Left { stdout: done.stdout, stderr: done.stderr, files: files.clone() };
    due.files.extend(targets.iter().copied().zip(done.made));
    Run { program, words, files, due, kind }
}

/// Cells as a file has them, now and then with an odd byte.
fn seconds_bytes(random: &mut Random, letters: usize) -> Vec<u8> {
    let mut bytes = bytes_of(&some_seconds(random, letters));
    if random.once_in(4) {
        bytes.push(random.byte());
    }
    bytes
}

/// A file, or none, now and then about as long as the longest that is read.
fn file(random: &mut Random, mut bytes: Vec<u8>) -> Option<Vec<u8>> {
    match random.below(32) {
        0 => None,
        1 => {
            bytes.resize(LONGEST_FILE + random.below(2), 0);
            Some(bytes)
        }
        _ => Some(bytes),
    }
}

fn file_of_faults(random: &mut Random, text: Vec<u8>) -> Option<Vec<u8>> {
    let text = damaged(random, text);
    file(random, text)
}

/// The level, or number and part of the refusal.
fn kind(program: &str, done: &Done, level: &str) -> String {
    match done.stdout.lines().nth(1).map(|line| line.split(' ').collect::<Vec<_>>()) {
        Some(words) => format!("{program}: refused {} {}", words[0], words[1]),
        None => format!("{program}: {level}"),
    }
}
