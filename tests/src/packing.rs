//! What the programs `pack` and `unpack` print, say and make, after 01 and F-5; of files that are called text, sheet and seconds.

use crate::printed::{not_too_long, refused, LONGEST_FILE};
use crate::said::{self, text_place};
use crate::sheet::{Part, Refusal};
use crate::sheet_text::{sheet_of, write};

const OTHER_LENGTH: &str = "unpack: SECONDS has not two bytes for each scene\n";
/// More than the longest text of a sheet has.
const ROOM: usize = 120_000;

/// What a run prints, and the files that it makes, in the order of its arguments; none where it is refused.
pub struct Done {
    pub stdout: String,
    pub stderr: String,
    pub made: Vec<Vec<u8>>,
}

/// `pack TEXT SHEET [SECONDS]`, for the bytes of the text; a missing file counts as empty. The third file is empty at level three.
pub fn pack(text: &[u8], keeps_seconds: bool) -> Done {
    let written = match not_too_long(Part::First, text).and_then(|()| sheet_of(text)) {
        Ok(written) => written,
        Err(refusal) => return Done::refused(refusal, text_place("text", text, refusal.place)),
    };
    let mut made = vec![written.sheet.pack()];
    let mut stderr = String::new();
    if keeps_seconds {
        made.push(bytes_of(&written.seconds));
    } else if written.level == 4 {
        stderr = "pack: the seconds were not kept\n".to_string();
    }
    Done { stdout: String::new(), stderr, made }
}

/// `unpack SHEET TEXT [SECONDS]`, for the bytes of the sheet and, where a third file is named, of that file.
pub fn unpack(sheet: &[u8], seconds: Option<&[u8]>) -> Done {
    let mut text = vec![0; ROOM];
    let level = if seconds.is_some() { 4 } else { 3 };
    let seconds = seconds.unwrap_or_default();
    // An odd last byte is no cell.
    let cells: Vec<u16> = seconds.chunks_exact(2).map(|cell| u16::from_le_bytes([cell[0], cell[1]])).collect();
    let result = not_too_long(Part::First, sheet)
        .and_then(|()| not_too_long(Part::Second, seconds))
        .and_then(|()| write(level, sheet, &cells, &mut text));
    match result {
        Ok(length) => {
            text.truncate(length);
            let mut stderr = String::new();
            if level == 4 && seconds.len() != 2 * usize::from(sheet[0]) {
                stderr += OTHER_LENGTH;
            }
            if length > LONGEST_FILE {
                stderr += "unpack: the text is longer than the 65,536 bytes that pack takes\n";
            }
            Done { stdout: String::new(), stderr, made: vec![text] }
        }
        Err(refusal) => {
            let mut done = Done::refused(refusal, unpack_place(refusal));
            if (refusal.number, refusal.part) == (21, Part::Seconds) {
                done.stderr += OTHER_LENGTH;
            }
            done
        }
    }
}

/// By the byte of the sheet or of the seconds, of which each number has two.
fn unpack_place(Refusal { part, place, .. }: Refusal) -> String {
    match part {
        Part::Second => format!("seconds: byte {place}"),
        Part::Seconds => format!("seconds: byte {}", 2 * place),
        _ => format!("sheet: byte {place}"),
    }
}

/// Cells of 16 bits, low byte first.
pub fn bytes_of(cells: &[u16]) -> Vec<u8> {
    cells.iter().flat_map(|cell| cell.to_le_bytes()).collect()
}

impl Done {
    fn refused(refusal: Refusal, place: String) -> Self {
        let stderr = said::refused(refusal.number, &place);
        Done { stdout: refused(refusal), stderr, made: Vec::new() }
    }
}

#[cfg(test)]
mod tests {
    use super::*;
    use crate::printed::LONGEST_FILE;
    use crate::rows::B;

    /// Files with two faults each, by hand: the one that is judged earlier is told.
    #[test]
    fn unpack_judges_in_the_order_of_the_papers() {
        let long = vec![0; LONGEST_FILE + 1];
        let refused = |sheet: &[u8], seconds: Option<&[u8]>, refusal: &str, said: &str| {
            let done = unpack(sheet, seconds);
            assert_eq!(done.stdout, format!("refused part place\n{refusal}\n"));
            assert!(done.made.is_empty() && done.stderr.starts_with(said), "{}", done.stderr);
        };
        refused(&long, Some(&long), "25 first 65536", "sheet: byte 65536: refusal 25: the file ");
        refused(&[], Some(&long), "25 second 65536", "seconds: byte 65536: refusal 25: the file ");
        refused(&[], Some(&[]), "1 first 0", "sheet: byte 0: refusal 1: the packed sheet ");
        refused(B, Some(&[7, 0, 120]), "21 seconds 2", "seconds: byte 4: refusal 21: ");
        refused(B, Some(&[0, 0, 120]), "21 seconds 2", "seconds: byte 4: refusal 21: ");
        refused(B, Some(&[0, 1, 0, 0]), "14 seconds 1", "seconds: byte 2: refusal 14: ");
        refused(B, Some(&[231, 3, 232, 3]), "14 seconds 1", "seconds: byte 2: refusal 14: ");
        refused(B, Some(&long[..LONGEST_FILE]), "14 seconds 0", "seconds: byte 0: refusal 14: ");
    }

    #[test]
    fn pack_says_the_line_and_the_column() {
        let said = |text: &str| pack(text.as_bytes(), false).stderr;
        assert_eq!(said(""), "text:1:1: refusal 11: the text departs from its layout here, or ends too early\n");
        assert_eq!(said("level scenes places\n5 2 1\n"), "text:2:1: refusal 10: the level is neither 3 nor 4\n");
        assert_eq!(
            said("level scenes places\n3 33 1\n"),
            "text:2:3: refusal 2: the number of scenes is not from 1 to 32\n"
        );
        assert_eq!(
            said("level scenes places\n3 2 1\n"),
            "text:3:1: refusal 11: the text departs from its layout here, or ends too early\n"
        );
    }

    #[test]
    fn what_is_made_goes_both_ways() {
        let text = &unpack(B, Some(&[7, 0, 231, 3, 0])).made[0];
        assert!(text.starts_with(b"level scenes places\n4 2 1\nscene seconds\n0 7\n1 999\nplace"));
        assert_eq!(pack(text, true).made, [B.to_vec(), vec![7, 0, 231, 3]]);
        let lost = pack(text, false);
        assert_eq!((lost.made, lost.stderr.as_str()), (vec![B.to_vec()], "pack: the seconds were not kept\n"));
        let text = &unpack(B, None).made[0];
        assert_eq!(pack(text, true).made, [B.to_vec(), vec![]]);
        assert_eq!(pack(text, false).made, [B.to_vec()]);
        assert!(pack(&text[1..], true).made.is_empty());
    }
}
