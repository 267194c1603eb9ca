//! Prefixes at random, each cut into parts in many ways or in every way: a pass says the same of all of them, and the verdict refuses a
//! letter of the prefix exactly where the pass does.

use crate::case::{letters_of, put_unknown};
use crate::driver::calls::refused;
use crate::driver::line::{print, Cell};
use crate::driver::pass::{pass_words, MOST_PARTS};
use crate::driver::random_line::Sent;
use crate::driver::random_sheets::sheet;
use crate::mix::of_sizes;
use crate::pass::{pass, Pass};
use crate::printed::verdict_words;
use crate::random::Random;
use crate::sheet::{Part, Sheet, MOST};
use crate::verdict::{verdict, Verdict};

const SHORT: usize = 240;
const LONG: usize = 240;
/// Prefixes shorter than this are cut in every way.
const SHORT_LENGTHS: usize = 6;
const CUTS: usize = 12;
const PERIODS: usize = 4;

/// For each prefix lines `pass`, one for each cut, and lines `verdict`. What is due for all of them is said by one pass over the whole.
pub fn cut_lines(seed: u64) -> impl Iterator<Item = Sent> {
    let mut random = Random::new(seed);
    (0..SHORT + LONG).flat_map(move |at| {
        let sheet = if random.once_in(12) { sheet(&mut random) } else { any_small(&mut random) };
        let letters = letters_of(&sheet);
        let mut prefix = if at < SHORT { random.word(at % SHORT_LENGTHS, letters) } else { long(&mut random, letters) };
        if random.once_in(2) {
            put_unknown(&mut random, &mut prefix, letters);
        }
        // A sheet may be long, and then the lines for all cuts would be too many.
        let every = at < SHORT && sheet.len() < 3000;
        let cuts = if every { every_cut(prefix.len()) } else { some_cuts(&mut random, &prefix, letters) };
        let lines = lines_of(&mut random, &sheet, &prefix, &cuts);
        lines.into_iter().map(move |(line, due)| Sent {
            name: format!("prefix {at}"),
            line: line.into_bytes(),
            due: due.into_bytes(),
        })
    })
}

/// A sheet with small progress automata; now and then with the most letters and states.
fn any_small(random: &mut Random) -> Vec<u8> {
    let most = random.pick(&[4, 4, 8, MOST]);
    let [letters, states] = [(); 2].map(|()| random.between(1, most));
    let size = random.between(1, 2);
    of_sizes(random, letters, states, size).pack()
}

/// Some letters and then one letter again and again; all letters at random would make long lines.
fn long(random: &mut Random, letters: usize) -> Vec<u8> {
    let most = random.pick(&[100, 5000, 70_000, u8::LONG]);
    let length = random.between(7, most);
    let free = random.below(length.min(200));
    let mut prefix = random.word(free, letters);
    prefix.resize(length, random.below(letters) as u8);
    if random.once_in(2) {
        prefix.reverse();
    }
    prefix
}

/// Every way to cut a prefix of that length into one to eight parts: where each part but the first begins.
fn every_cut(length: usize) -> Vec<Vec<usize>> {
    let mut cuts = vec![Vec::new()];
    let mut last = 0;
    for _ in 1..MOST_PARTS {
        let more = cuts[last..].iter().flat_map(|cut| {
            let from = cut.last().copied().unwrap_or(0);
            (from..=length).map(|at| [cut.as_slice(), &[at]].concat())
        });
        let more: Vec<_> = more.collect();
        last = cuts.len();
        cuts.extend(more);
    }
    cuts
}

/// The whole, and cuts at its ends, about the first letter that is out of range, and anywhere.
fn some_cuts(random: &mut Random, prefix: &[u8], letters: usize) -> Vec<Vec<usize>> {
    let length = prefix.len();
    let unknown = prefix.iter().position(|&letter| letter as usize >= letters).unwrap_or(length / 2);
    let near = [0, unknown.saturating_sub(1), unknown, length.min(unknown + 1), length];
    let cuts = (0..CUTS).map(|_| {
        let count = random.between(1, MOST_PARTS - 1);
        let mut cut: Vec<usize> =
            (0..count).map(|_| if random.once_in(2) { random.pick(&near) } else { random.below(length + 1) }).collect();
        cut.sort();
        cut
    });
    [Vec::new()].into_iter().chain(cuts).collect()
}

/// The parts of a cut.
pub fn parts<'a>(prefix: &'a [u8], cut: &[usize]) -> Vec<&'a [u8]> {
    let begins = [0].iter().chain(cut);
    let ends = cut.iter().copied().chain([prefix.len()]);
    begins.zip(ends).map(|(&begin, end)| &prefix[begin..end]).collect()
}

/// The lines for a prefix, each with what is due.
fn lines_of(random: &mut Random, sheet: &[u8], prefix: &[u8], cuts: &[Vec<usize>]) -> Vec<(String, String)> {
    let passed = Sheet::read(sheet, Part::First).map(|sheet| pass(&sheet, prefix));
    let cells = print(sheet);
    let due = passed.map_or_else(refused, pass_words);
    let passes = cuts.iter().map(|cut| {
        let parts: Vec<String> = parts(prefix, cut).into_iter().map(print).collect();
        (format!("pass {cells} {}", parts.join(" ")), due.clone())
    });
    let verdicts = (0..PERIODS).map(|_| {
        let length = random.between(1, 9);
        let period = random.word(length, letters_of(sheet));
        let due = match passed {
            Err(refusal) => refused(refusal),
            Ok(Pass::Unknown(position)) => format!("refused 9 opening {position}"),
            Ok(Pass::Reached(state)) => {
                let given = verdict(sheet, prefix, &period).expect("sheet and lasso are in order");
                let leading = if given.before == 0 { state } else { given.leading };
                verdict_words(&Verdict { leading, ..given })
            }
        };
        (format!("verdict {cells} {} {}", print(prefix), print(&period)), due)
    });
    passes.chain(verdicts).collect()
}

#[cfg(test)]
mod tests {
    use super::*;
    use crate::driver::calls::answer;
    use crate::driver::coverage::Coverage;
    use crate::inclusion::Search;

    #[test]
    fn the_independent_implementation_prints_what_is_due() {
        let mut search = Search::default();
        let (mut met, mut at_once) = (Coverage::default(), 0);
        for Sent { name, line, due } in cut_lines(5) {
            assert_eq!(answer(&line, &mut search), due, "{name}");
            met.add(&line, &due);
            at_once += (due.starts_with(b"accepted 0") || due.starts_with(b"rejected 0")) as usize;
        }
        assert!(at_once > 500, "{at_once} verdicts are at the state after the prefix");
        for outcome in ["reached, above 0", "unknown, in a later part", "refused 9 opening"] {
            assert!(met.to_string().contains(outcome), "{met}");
        }
    }

    /// Counted by hand: of a prefix of one letter, 1 way into one part and one way more for each further part.
    #[test]
    fn every_cut_is_there_once() {
        assert_eq!(every_cut(0).len(), 8);
        assert_eq!(every_cut(1).len(), 1 + 2 + 3 + 4 + 5 + 6 + 7 + 8);
        let mut cuts = every_cut(3);
        assert!(cuts.iter().all(|cut| parts(&[5, 6, 7], cut).concat() == [5, 6, 7]));
        cuts.sort();
        cuts.dedup();
        assert_eq!(cuts.len(), 330);
    }
}
