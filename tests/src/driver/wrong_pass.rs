//! Passes that are wrong in one way each: the comparison must find each, and so must the stored rows.

use crate::driver::calls;
use crate::driver::pass::pass_by;
use crate::inclusion::Search;
use crate::pass::{pass, walk, Pass};
use crate::sheet::Sheet;

/// The position counted from the part's start; letters out of range passed over; the last such letter told; the last letter judged and not
/// walked, or walked and not judged; the first part alone taken; each part begun at state 0.
pub const KINDS: [&str; 7] =
    ["part-position", "passed-over", "last-unknown", "last-unwalked", "last-unjudged", "first-part", "part-from-0"];

/// What is printed for a line by a driver whose passes are wrong in that way; of every other kind they are right.
pub fn answer(kind: &str, line: &[u8], search: &mut Search) -> Vec<u8> {
    let Some(words) = line.strip_prefix(b"pass ") else {
        return calls::answer(line, search);
    };
    let words: Vec<&[u8]> = words.split(|&byte| byte == b' ').collect();
    let printed = pass_by(&words, |sheet, parts| taken(kind, sheet, parts));
    printed.map_or_else(|_| b"no call".to_vec(), String::into_bytes)
}

fn taken(kind: &str, sheet: &Sheet, parts: &[Vec<u8>]) -> Pass {
    let prefix = parts.concat();
    let known = |letter: &u8| (*letter as usize) < sheet.letters;
    let due = pass(sheet, &prefix);
    match (kind, due, prefix.as_slice()) {
        ("part-position", Pass::Unknown(_), _) => {
            let in_part = parts.iter().find_map(|part| part.iter().position(|letter| !known(letter)));
            in_part.map_or(due, Pass::Unknown)
        }
        ("passed-over", ..) => pass(sheet, &prefix.into_iter().filter(known).collect::<Vec<_>>()),
        ("last-unknown", Pass::Unknown(_), _) => {
            prefix.iter().rposition(|letter| !known(letter)).map_or(due, Pass::Unknown)
        }
        ("last-unwalked", Pass::Reached(_), [before @ .., _]) => pass(sheet, before),
        ("last-unjudged", _, [before @ .., last]) => match pass(sheet, before) {
            Pass::Reached(state) => Pass::Reached(walk(sheet, state, &[last % sheet.letters as u8])),
            unknown => unknown,
        },
        ("first-part", ..) => pass(sheet, &parts[0]),
        ("part-from-0", Pass::Reached(_), _) => pass(sheet, &parts[parts.len() - 1]),
        _ => due,
    }
}
