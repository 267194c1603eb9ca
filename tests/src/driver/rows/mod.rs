//! Lines to store, each with what the papers say of it: 01's rows, refusals of every number, cases that invite a mistake, no calls.
//!
//! What is stated is written by hand, from the papers; a test holds the independent implementation to it.

mod cart_faults;
mod carts;
mod durations;
mod forms;
mod import_edits;
mod import_faults;
mod imports;
mod largest;
mod passes;
mod refusals;
mod searches;
mod shows;
mod standings;
mod texts;
mod timed_edits;
mod timed_reading;
mod timed_writing;
mod tries;

use crate::driver::calls::{answer, lines};
use crate::driver::line::print;
use crate::inclusion::Search;
use crate::rows::{complemented, A, B, C, D, E, HALL, LEFT, RIGHT};

pub use carts::longest as longest_carts;
pub use import_edits::FIVE_PLACES;
pub use largest::rows as largest_rows;
pub use shows::TEN_LINES;
pub use texts::TEXT_OF_B;
pub use timed_edits::FOUR_OF_B;

pub struct Row {
    pub line: String,
    /// The whole line that is printed.
    pub stated: String,
}

pub fn rows() -> Vec<Row> {
    let mut rows = tries::rows();
    rows.extend(refusals::rows());
    rows.extend(searches::rows());
    rows.extend(standings::rows());
    rows.extend(texts::rows());
    rows.extend(forms::rows());
    rows.extend(shows::rows());
    rows.extend(imports::rows());
    rows.extend(import_edits::rows());
    rows.extend(import_faults::rows());
    rows.extend(passes::rows());
    rows.extend(timed_reading::rows());
    rows.extend(timed_edits::rows());
    rows.extend(timed_writing::rows());
    rows.extend(durations::rows());
    rows.extend(carts::rows());
    rows.extend(cart_faults::rows());
    rows.extend(largest::rows());
    rows
}

/// The rows as an input of the driver, and what is due for it.
pub fn stored() -> (Vec<u8>, Vec<u8>) {
    let mut search = Search::default();
    let (mut input, mut output) = (Vec::new(), Vec::new());
    for row in rows() {
        input.extend(row.line.bytes());
        input.push(b'\n');
    }
    for line in lines(&input) {
        output.extend(answer(line, &mut search));
        output.push(b'\n');
    }
    (input, output)
}

/// A line that says what the next ones are; the driver prints it as it is.
fn note(text: &str) -> Row {
    Row { line: format!("# {text}"), stated: format!("# {text}") }
}

/// A row in which sheets and texts may stand by name, complements too: `verdict B - 0`, `verdict co-B - 0`, `read B.txt 11*9 -`, `read B4.txt 11*9 2*8`.
fn row(line: &str, stated: &str) -> Row {
    let words: Vec<String> = line.split(' ').map(expanded).collect();
    Row { line: words.join(" "), stated: stated.to_string() }
}

/// Rows and, where nothing is stated, notes.
fn table(rows: &[(impl AsRef<str>, &str)]) -> Vec<Row> {
    let made = |line: &str, stated: &str| if stated.is_empty() { note(line) } else { row(line, stated) };
    rows.iter().map(|(line, stated)| made(line.as_ref(), stated)).collect()
}

/// Rows for a text in which one piece is changed: what stands in it, what takes its place, and the refusal, number and place. Where no
/// refusal is given, the first is a note. The row is made of the changed text and what is stated of it.
fn edited(text: &str, edits: &[(&str, &str, &str)], row: impl Fn(&str, &str) -> Row) -> Vec<Row> {
    let mut rows = Vec::new();
    for &(old, new, refusal) in edits {
        let Some((number, place)) = refusal.split_once(' ') else {
            rows.push(note(old));
            continue;
        };
        let changed = text.replacen(old, new, 1);
        assert_ne!(changed, text);
        rows.push(row(&changed, &format!("refused {number} first {place}")));
    }
    rows
}

fn expanded(word: &str) -> String {
    let sheets = [("A", A), ("B", B), ("C", C), ("D", D), ("E", E), ("LEFT", LEFT), ("RIGHT", RIGHT), ("HALL", HALL)];
    let (name, turned) = word.strip_prefix("co-").map_or((word, false), |name| (name, true));
    if let Some((_, sheet)) = sheets.iter().find(|(known, _)| *known == name) {
        return if turned { print(&complemented(sheet)) } else { print(sheet) };
    }
    match texts::TEXTS.iter().chain(&[("B4.txt", FOUR_OF_B)]).find(|(name, _)| *name == word) {
        Some((_, text)) => print(text.as_bytes()),
        None => word.to_string(),
    }
}

/// A sheet whose next states are all 0 and whose marks are all the same, as a word.
fn plain(letters: usize, states: usize, size: usize, mark: u8) -> String {
    let mut sheet = vec![letters as u8, states as u8];
    sheet.extend(vec![size as u8; states]);
    sheet.extend(vec![0; states * letters]);
    for _ in 0..states {
        sheet.extend(vec![0; size * letters]);
        sheet.extend(vec![mark; size]);
    }
    print(&sheet)
}

#[cfg(test)]
mod tests {
    use super::*;
    use crate::driver::coverage::Coverage;
    use crate::driver::{wrong_carts, wrong_durations, wrong_level, wrong_pass};

    #[test]
    fn the_independent_implementation_prints_what_is_stated() {
        let mut search = Search::default();
        for row in rows() {
            let printed = String::from_utf8(answer(row.line.as_bytes(), &mut search)).unwrap();
            assert_eq!(printed, row.stated, "{}", row.line);
        }
    }

    #[test]
    fn every_outcome_of_every_call_has_a_row() {
        let mut search = Search::default();
        let mut coverage = Coverage::default();
        for row in rows() {
            coverage.add(row.line.as_bytes(), &answer(row.line.as_bytes(), &mut search));
        }
        assert_eq!(coverage.faults(1).join("\n"), "");
    }

    #[test]
    fn every_wrong_pass_is_found() {
        let mut search = Search::default();
        for kind in wrong_pass::KINDS {
            let found = |row: &Row| wrong_pass::answer(kind, row.line.as_bytes(), &mut search) != row.stated.as_bytes();
            assert!(rows().iter().any(found), "{kind}");
        }
    }

    #[test]
    fn every_wrong_reader_and_writer_is_found() {
        find_each(wrong_level::kinds(), wrong_level::wrong);
    }

    #[test]
    fn every_wrong_running_sheet_is_found() {
        find_each(wrong_durations::kinds(), wrong_durations::wrong);
    }

    #[test]
    fn every_wrong_loader_is_found() {
        find_each(wrong_carts::kinds(), wrong_carts::wrong);
    }

    fn find_each(kinds: impl Iterator<Item = &'static str>, wrong: fn(&str, &[u8]) -> Option<Vec<u8>>) {
        let rows = rows();
        for kind in kinds {
            let found =
                |row: &Row| wrong(kind, row.line.as_bytes()).is_some_and(|printed| printed != row.stated.as_bytes());
            assert!(rows.iter().any(found), "{kind}");
        }
    }

    #[test]
    fn a_row_is_one_line() {
        assert!(rows().iter().all(|row| !row.line.contains('\n') && !row.stated.is_empty()));
    }
}
