//! Writers of running sheets that are wrong in one way each: the stored rows must find each, and so must lines at random.

use crate::driver::durations::durations_by;
use crate::lent::{fill, room};
use crate::running_sheet::{text_of, LONGEST};
use crate::sheet::{Part, Refusal};
use Judged::*;

/// What is judged, in the order that is due.
#[derive(Clone, Copy)]
enum Judged {
    OpeningLetters,
    NoLoop,
    LoopLetters,
    Cells,
    LongOpening,
    LongLoop,
    Room,
}

const DUE: [Judged; 7] = [OpeningLetters, NoLoop, LoopLetters, Cells, LongOpening, LongLoop, Room];

/// Other orders, each named by what comes too early or too late.
const ORDERS: [(&str, [Judged; 7]); 12] = [
    ("8-first", [NoLoop, OpeningLetters, LoopLetters, Cells, LongOpening, LongLoop, Room]),
    ("loop-9-first", [LoopLetters, OpeningLetters, NoLoop, Cells, LongOpening, LongLoop, Room]),
    ("14-first", [Cells, OpeningLetters, NoLoop, LoopLetters, LongOpening, LongLoop, Room]),
    ("14-before-8", [OpeningLetters, Cells, NoLoop, LoopLetters, LongOpening, LongLoop, Room]),
    ("14-before-loop-9", [OpeningLetters, NoLoop, Cells, LoopLetters, LongOpening, LongLoop, Room]),
    ("26-first", [LongOpening, LongLoop, OpeningLetters, NoLoop, LoopLetters, Cells, Room]),
    ("26-before-8", [OpeningLetters, LongOpening, LongLoop, NoLoop, LoopLetters, Cells, Room]),
    ("26-before-loop-9", [OpeningLetters, NoLoop, LongOpening, LongLoop, LoopLetters, Cells, Room]),
    ("26-before-14", [OpeningLetters, NoLoop, LoopLetters, LongOpening, LongLoop, Cells, Room]),
    ("loop-26-first", [OpeningLetters, NoLoop, LoopLetters, Cells, LongLoop, LongOpening, Room]),
    ("21-before-14", [OpeningLetters, NoLoop, LoopLetters, Room, Cells, LongOpening, LongLoop]),
    ("21-before-26", [OpeningLetters, NoLoop, LoopLetters, Cells, Room, LongOpening, LongLoop]),
];

/// Letters judged by 32, by the low byte of how many cells there are, or the last unknown one told; cells judged that the show has, or
/// that a byte can name, or the last bad one told; 0 or 1000 taken; 26 from 65,536 on, only above 65,537, or with the length as its place;
/// the room told as what there is; filled as far as it goes; the cells behind cleared; totals in 16 bits, exchanged, or added up; seconds
/// with the low byte alone.
const FAULTS: [&str; 18] = [
    "9-by-32",
    "9-by-low-byte",
    "9-at-the-last",
    "14-of-shown-scenes",
    "14-of-256-cells",
    "14-at-the-last",
    "zero-taken",
    "thousand-taken",
    "26-from-65536",
    "26-above-65537",
    "26-at-the-length",
    "room-told-as-lent",
    "filled-though-short",
    "tail-cleared",
    "totals-of-16-bits",
    "totals-exchanged",
    "totals-added",
    "low-byte-printed",
];

pub fn kinds() -> impl Iterator<Item = &'static str> {
    ORDERS.iter().map(|order| order.0).chain(FAULTS)
}

/// What is printed for a line by a driver whose running sheets are wrong in that way; none where the line is of another call.
pub fn wrong(kind: &str, line: &[u8]) -> Option<Vec<u8>> {
    let words: Vec<&[u8]> = line.strip_prefix(b"durations ")?.split(|&byte| byte == b' ').collect();
    let printed = durations_by(&words, |prefix, period, seconds, out| {
        let call = Call { kind, prefix, period, seconds };
        call.write(out)
    });
    Some(printed.map_or_else(|_| b"no call".to_vec(), String::into_bytes))
}

struct Call<'a> {
    kind: &'a str,
    prefix: &'a [u8],
    period: &'a [u8],
    seconds: &'a [u16],
}

impl Call<'_> {
    fn write(&self, out: &mut [u8]) -> Result<usize, Refusal> {
        let order = ORDERS.iter().find(|order| order.0 == self.kind).map_or(DUE, |order| order.1);
        order.into_iter().try_for_each(|judged| self.judge(judged, out))?;
        let text = self.text();
        if self.kind == "tail-cleared" {
            out[text.len()..].fill(0);
        }
        fill(out, &text)
    }

    fn judge(&self, judged: Judged, out: &mut [u8]) -> Result<(), Refusal> {
        match judged {
            OpeningLetters => self.judge_letters(Part::Opening, self.prefix),
            NoLoop if self.period.is_empty() => Err(Refusal { number: 8, part: Part::Loop, place: 0 }),
            NoLoop => Ok(()),
            LoopLetters => self.judge_letters(Part::Loop, self.period),
            Cells => self.judge_cells(),
            LongOpening => self.judge_length(Part::Opening, self.prefix.len()),
            LongLoop => self.judge_length(Part::Loop, self.period.len()),
            Room => self.judge_room(out),
        }
    }

    fn judge_letters(&self, part: Part, letters: &[u8]) -> Result<(), Refusal> {
        let count = match self.kind {
            "9-by-32" => self.seconds.len().min(32),
            "9-by-low-byte" => self.seconds.len() & 255,
            _ => self.seconds.len(),
        };
        refused_at(9, part, self.kind == "9-at-the-last", letters.iter().map(|&letter| letter as usize >= count))
    }

    fn judge_cells(&self) -> Result<(), Refusal> {
        let named = |at: usize| u8::try_from(at).is_ok_and(|at| self.prefix.contains(&at) || self.period.contains(&at));
        let bad = |(at, &cell): (usize, &u16)| match self.kind {
            "14-of-shown-scenes" if !named(at) => false,
            "14-of-256-cells" if at >= 256 => false,
            "zero-taken" => cell > 999,
            "thousand-taken" => cell == 0 || cell > 1000,
            _ => cell == 0 || cell > 999,
        };
        let cells = self.seconds.iter().enumerate().map(bad);
        refused_at(14, Part::Seconds, self.kind == "14-at-the-last", cells)
    }

    fn judge_length(&self, part: Part, length: usize) -> Result<(), Refusal> {
        let most = match self.kind {
            "26-from-65536" => LONGEST - 1,
            "26-above-65537" => LONGEST + 1,
            _ => LONGEST,
        };
        let place = if self.kind == "26-at-the-length" { length } else { LONGEST };
        if length > most {
            return Err(Refusal { number: 26, part, place });
        }
        Ok(())
    }

    fn judge_room(&self, out: &mut [u8]) -> Result<(), Refusal> {
        let text = self.text();
        let fits = room(Part::Out, out.len(), text.len());
        if fits.is_err() && self.kind == "filled-though-short" {
            out.copy_from_slice(&text[..out.len()]);
        }
        let place = |needed| if self.kind == "room-told-as-lent" { out.len() } else { needed };
        fits.map_err(|refusal| Refusal { place: place(refusal.place), ..refusal })
    }

    fn text(&self) -> Vec<u8> {
        let low_bytes: Vec<u16> = self.seconds.iter().map(|cell| cell & 255).collect();
        let seconds = if self.kind == "low-byte-printed" { low_bytes.as_slice() } else { self.seconds };
        let text = text_of(self.prefix, self.period, seconds);
        with_totals(text, |[before, turn]| match self.kind {
            "totals-of-16-bits" => [before & 0xffff, turn & 0xffff],
            "totals-exchanged" => [turn, before],
            "totals-added" => [before, before + turn],
            _ => [before, turn],
        })
    }
}

/// A refusal at the first place of a fault, or at the last.
fn refused_at(number: usize, part: Part, last: bool, faults: impl Iterator<Item = bool>) -> Result<(), Refusal> {
    let mut places = faults.enumerate().filter(|fault| fault.1).map(|fault| fault.0);
    match if last { places.last() } else { places.next() } {
        Some(place) => Err(Refusal { number, part, place }),
        None => Ok(()),
    }
}

/// The text with other totals in its last line.
fn with_totals(text: Vec<u8>, change: impl Fn([u64; 2]) -> [u64; 2]) -> Vec<u8> {
    let text = String::from_utf8(text).expect("a running sheet is text");
    let (block, totals) = text.trim_end().rsplit_once('\n').expect("the totals have a line");
    let (before, turn) = totals.split_once(' ').expect("there are two");
    let [before, turn] = change([before, turn].map(|total| total.parse().expect("a total is a number")));
    format!("{block}\n{before} {turn}\n").into_bytes()
}
