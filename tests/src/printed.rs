//! What the programs print for their files, after 01, F-1, F-2 and F-6: block by block, or the refusal.

use crate::inclusion::{Inclusion, Search};
use crate::sheet::{Part, Refusal, Sheet};
use crate::standing::Standing;
use crate::verdict::{self, Verdict};
use crate::{running_sheet, sheet_text, show_text};

/// The scenes that a program has room for in each part of a show.
pub const SCENES: usize = 4096;
/// The bytes of the longest file that is read.
pub const LONGEST_FILE: usize = 65_536;

/// What `compare` prints for packed sheets that are no longer than a file may be.
pub fn comparison(search: &mut Search, first: &[u8], second: &[u8]) -> String {
    let (mut prefix, mut period) = ([0; SCENES], [0; SCENES]);
    match search.compare(first, second, &mut prefix, &mut period) {
        Ok(Inclusion::Contained { reached }) => {
            verdict_block("contained", [reached, 0, 0]) + &standings([Standing::default(); 2])
        }
        Ok(Inclusion::Missing { reached, prefix: prefix_length, period: period_length, standings: found }) => {
            let verdict = verdict_block("missing", [reached, prefix_length, period_length]);
            verdict + &show_text::text_of(&prefix[..prefix_length], &period[..period_length]) + &standings(found)
        }
        Err(refusal) => refused(refusal),
    }
}

fn verdict_block(word: &str, [reached, prefix, period]: [usize; 3]) -> String {
    format!("verdict reached opening loop\n{word} {reached} {prefix} {period}\n")
}

fn standings([first, second]: [Standing; 2]) -> String {
    format!("waits ends\n{} {}\n{} {}\n", first.waits, first.ends, second.waits, second.ends)
}

/// What `verdict` prints for the bytes of its two files; a missing file counts as empty.
pub fn verdict(sheet: &[u8], text: &[u8]) -> String {
    match judged(sheet, text) {
        Ok(given) => format!("verdict i j place end\n{}\n", verdict_words(&given)),
        Err(refusal) => refused(refusal),
    }
}

fn judged(sheet: &[u8], text: &[u8]) -> Result<Verdict, Refusal> {
    files_not_too_long(sheet, text)?;
    Sheet::read(sheet, Part::First)?;
    let (prefix, period) = show(text)?;
    verdict::verdict(sheet, &prefix, &period)
}

/// What `durations` prints for the bytes of its two files, a sheet's text and a show's.
pub fn durations(sheet: &[u8], text: &[u8]) -> String {
    timed(sheet, text).unwrap_or_else(refused)
}

/// A text of level three has no seconds.
fn timed(sheet: &[u8], text: &[u8]) -> Result<String, Refusal> {
    files_not_too_long(sheet, text)?;
    let seconds = sheet_text::sheet_of(sheet)?.seconds;
    let (prefix, period) = show(text)?;
    running_sheet::judge(&prefix, &period, &seconds)?;
    let running_sheet = running_sheet::text_of(&prefix, &period, &seconds);
    Ok(String::from_utf8(running_sheet).expect("a running sheet is text"))
}

/// Prefix and period of the show in a file that counts as the second.
pub fn show(text: &[u8]) -> Result<(Vec<u8>, Vec<u8>), Refusal> {
    let (mut prefix, mut period) = (vec![0; SCENES], vec![0; SCENES]);
    let (before, turn) = show_text::read(text, &mut prefix, &mut period).map_err(|refusal| match refusal.part {
        Part::First => Refusal { part: Part::Second, ..refusal },
        _ => refusal,
    })?;
    prefix.truncate(before);
    period.truncate(turn);
    Ok((prefix, period))
}

fn files_not_too_long(first: &[u8], second: &[u8]) -> Result<(), Refusal> {
    not_too_long(Part::First, first)?;
    not_too_long(Part::Second, second)
}

/// Refusal 25 where a file has more bytes than are read.
pub fn not_too_long(part: Part, file: &[u8]) -> Result<(), Refusal> {
    if file.len() > LONGEST_FILE {
        return Err(Refusal { number: 25, part, place: LONGEST_FILE });
    }
    Ok(())
}

/// The word and the numbers of a verdict.
pub fn verdict_words(given: &Verdict) -> String {
    let word = if given.accepted { "accepted" } else { "rejected" };
    format!("{word} {} {} {} {}", given.before, given.turns, given.leading, given.end)
}

pub fn refused(Refusal { number, part, place }: Refusal) -> String {
    format!("refused part place\n{number} {} {place}\n", part.name())
}

#[cfg(test)]
mod tests {
    use super::*;
    use crate::rows::{B, E};

    /// Files with two faults each, by hand: the one that is judged earlier is told.
    #[test]
    fn the_program_verdict_judges_in_the_order_of_the_papers() {
        let long = [0; LONGEST_FILE + 1];
        let openings = |scene: u8, count: usize| show_text::text_of(&vec![scene; count], &[0]);
        let refused = |sheet: &[u8], text: &[u8], refusal: &str| {
            assert_eq!(verdict(sheet, text), format!("refused part place\n{refusal}\n"));
        };
        refused(&long, &long, "25 first 65536");
        refused(&[], &long, "25 second 65536");
        refused(&[2, 1, 2], &[], "1 first 3");
        refused(B, &[], "11 second 0");
        refused(B, b"part scene\nopening 31\nopening 32\nloop 0\n", "9 second 30");
        refused(B, b"part scene\nopening 31\n", "8 second 22");
        refused(B, &[openings(31, SCENES + 1).as_bytes(), b"x"].concat(), "11 second 45085");
        refused(B, openings(31, SCENES + 1).as_bytes(), "21 opening 4097");
        refused(B, openings(31, SCENES).as_bytes(), "9 opening 0");
        refused(B, b"part scene\nopening 1\nopening 2\nloop 2\n", "9 opening 1");
        refused(B, b"part scene\nopening 1\nloop 1\nloop 31\n", "9 loop 1");
    }

    /// The sheet's text, then the show's, then the seconds of its scenes.
    #[test]
    fn the_program_durations_judges_in_the_order_of_the_papers() {
        let three = "level scenes places\n3 2 1\nplace loops s0 s1\n0 1 0 0\nplace loop mark s0 s1\n0 0 1 0 0\n";
        let four = three.replace("3 2 1\n", "4 2 1\nscene seconds\n0 7\n1 120\n");
        let is = |sheet: &str, text: &str, due: &str| assert_eq!(durations(sheet.as_bytes(), text.as_bytes()), due);
        let refused =
            |sheet: &str, text: &str, refusal: &str| is(sheet, text, &format!("refused part place\n{refusal}\n"));
        let long = "x".repeat(LONGEST_FILE + 1);
        let show = "part scene\nopening 1\nopening 0\nloop 1\n";
        is(&four, show, "part scene seconds\nopening 1 120\nopening 0 7\nloop 1 120\nopening loop\n127 120\n");
        refused(&long, &long, "25 first 65536");
        refused("", &long, "25 second 65536");
        refused("", "", "11 first 0");
        refused(&four.replace("0 7\n", "0 0\n"), "", "14 first 42");
        refused(&four, "", "11 second 0");
        refused(three, "part scene\nopening 1\n", "8 second 21");
        refused(three, &show_text::text_of(&[1; SCENES + 1], &[1]), "21 opening 4097");
        refused(three, show, "9 opening 0");
        refused(three, "part scene\nloop 0\n", "9 loop 0");
        refused(&four, "part scene\nopening 1\nopening 2\nloop 2\n", "9 opening 1");
        refused(&four, "part scene\nopening 1\nloop 2\n", "9 loop 0");
    }

    #[test]
    fn the_program_verdict_prints_what_the_papers_say_of_the_rows() {
        assert_eq!(verdict(B, b"part scene\nloop 0\n"), "verdict i j place end\naccepted 0 1 0 1\n");
        assert_eq!(verdict(E, b"part scene\nloop 0\n"), "verdict i j place end\naccepted 1 2 1 0\n");
        let text = b"part scene\nopening 0\nopening 0\nloop 0\n";
        assert_eq!(verdict(E, text), "verdict i j place end\nrejected 0 2 2 0\n");
    }
}
