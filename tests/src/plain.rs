//! The comparison and emptiness by a plain breadth-first search, straight from the definitions: a queue of the words' ends, and a set of
//! those that were seen. It shares nothing with `inclusion`, and takes sheets of any size; it is slow.

use crate::inclusion::Inclusion;
use crate::naive::Family;
use crate::sheet::{Part, Refusal};
use crate::standing::Standing;
use std::collections::hash_map::Entry;
use std::collections::{HashMap, VecDeque};

/// A lasso that was found, and where it takes the two families.
#[derive(Debug, PartialEq)]
pub struct Found {
    pub prefix: Vec<u8>,
    pub period: Vec<u8>,
    pub standings: [Standing; 2],
}

/// Two leading states and two progress states.
type Node = [u8; 4];

/// How many pairs of leading states are reached, and the first lasso that closes in both, is accepted by the first and rejected by the
/// second. Without a second family (emptiness) every lasso closes there and is rejected.
pub fn first_found(first: &Family, second: Option<&Family>) -> (usize, Option<Found>) {
    let lead = |[state1, state2, ..]: Node, letter: usize| {
        [first.leading_next(state1, letter), second.map_or(0, |second| second.leading_next(state2, letter))]
    };
    // The pairs by their first prefixes, of which the first is empty.
    let mut pairs = vec![([0, 0], Vec::new())];
    let lead_alone = |node: Node, letter: usize| {
        let [state1, state2] = lead(node, letter);
        [state1, state2, 0, 0]
    };
    search(first.letters, [0; 4], lead_alone, |node, word| {
        if node != [0; 4] {
            pairs.push(([node[0], node[1]], word()));
        }
        false
    });
    let reached = pairs.len();
    for ([waits1, waits2], prefix) in pairs {
        let step = |node: Node, letter: usize| {
            let [state1, state2] = lead(node, letter);
            let end1 = first.progress_next(waits1, node[2], letter);
            let end2 = second.map_or(0, |second| second.progress_next(waits2, node[3], letter));
            [state1, state2, end1, end2]
        };
        let mut found = None;
        search(first.letters, [waits1, waits2, 0, 0], step, |[state1, state2, end1, end2], word| {
            let rejected = !second.is_some_and(|second| second.is_marked(waits2, end2));
            if [state1, state2] == [waits1, waits2] && first.is_marked(waits1, end1) && rejected {
                let standing = |waits: u8, ends: u8| Standing { waits: waits as usize, ends: ends as usize };
                let standings = [standing(waits1, end1), standing(waits2, end2)];
                found = Some(Found { prefix: prefix.clone(), period: word(), standings });
            }
            found.is_some()
        });
        if found.is_some() {
            return (reached, found);
        }
    }
    (reached, None)
}

/// The same for packed sheets in order, as `inclusion` tells it: the lasso goes to the start of `prefix` and `period`, where both fit.
pub fn compare(
    first: &[u8],
    second: Option<&[u8]>,
    prefix: &mut [u8],
    period: &mut [u8],
) -> Result<Inclusion, Refusal> {
    let (reached, found) = first_found(&Family::unpack(first), second.map(Family::unpack).as_ref());
    let Some(found) = found else { return Ok(Inclusion::Contained { reached }) };
    let lengths = (found.prefix.len(), found.period.len());
    for (lent, length, part) in [(prefix.len(), lengths.0, Part::Opening), (period.len(), lengths.1, Part::Loop)] {
        if lent < length {
            return Err(Refusal { number: 23, part, place: length });
        }
    }
    prefix[..lengths.0].copy_from_slice(&found.prefix);
    period[..lengths.1].copy_from_slice(&found.period);
    Ok(Inclusion::Missing { reached, prefix: lengths.0, period: lengths.1, standings: found.standings })
}

/// Meets every node that a word of one letter or more leads to, by its first word: shorter words first, those of one length by their
/// letters. It stops where `meet` says so.
fn search(
    letters: usize,
    start: Node,
    step: impl Fn(Node, usize) -> Node,
    mut meet: impl FnMut(Node, &dyn Fn() -> Vec<u8>) -> bool,
) {
    // How each node was met: from where, and by which letter.
    let mut met: HashMap<u32, (Node, u8)> = HashMap::new();
    let mut queue = VecDeque::from([start]);
    while let Some(node) = queue.pop_front() {
        for letter in 0..letters {
            let next = step(node, letter);
            let Entry::Vacant(new) = met.entry(key(next)) else { continue };
            new.insert((node, letter as u8));
            if meet(next, &|| word_to(&met, start, next)) {
                return;
            }
            // From the start all was taken already.
            if next != start {
                queue.push_back(next);
            }
        }
    }
}

fn key(node: Node) -> u32 {
    u32::from_le_bytes(node)
}

fn word_to(met: &HashMap<u32, (Node, u8)>, start: Node, end: Node) -> Vec<u8> {
    let (mut node, letter) = met[&key(end)];
    let mut word = vec![letter];
    while node != start {
        let (from, letter) = met[&key(node)];
        word.push(letter);
        node = from;
    }
    word.reverse();
    word
}

#[cfg(test)]
mod tests {
    use super::*;
    use crate::emptiness::first_accepted;
    use crate::generate::{self, Draft};
    use crate::inclusion::Search;
    use crate::layout::{inclusion_numbers, COMPARE_IN_BYTES};
    use crate::library::{self, Cells, CellsMut};
    use crate::random::Random;

    /// The most cells that two sheets of eight places with loop automata of eight need.
    const CELLS: usize = 64 + 64 * 64;

    /// Two sheets of up to eight places: free ones, or the second made from the first.
    fn pair(random: &mut Random) -> (Draft, Draft) {
        let letters = random.between(1, 3);
        let size = |random: &mut Random| random.between(1, 8);
        let first = generate::sheet_of(random, letters, size);
        let second = match random.below(4) {
            0 => generate::widened(random, &first),
            1 => generate::altered(random, &first),
            _ => generate::sheet_of(random, letters, size),
        };
        let second = generate::renumbered(random, &second);
        (first, second)
    }

    /// What a call of the library left: its eight numbers and the lasso.
    fn called(call: impl FnOnce(CellsMut, CellsMut, CellsMut<u64>, CellsMut) -> u32) -> (Vec<usize>, Vec<u8>, Vec<u8>) {
        let (mut prefix, mut period) = (vec![0; CELLS], vec![0; CELLS]);
        let (mut work, mut answer) = (vec![7; CELLS], vec![0; COMPARE_IN_BYTES]);
        let lent = ((&mut prefix).into(), (&mut period).into(), (&mut work).into(), (&mut answer).into());
        assert_eq!(call(lent.0, lent.1, lent.2, lent.3), 1);
        let number = |cells: &[u8]| usize::from_le_bytes(cells.try_into().unwrap());
        let numbers: Vec<usize> = answer.chunks_exact(8).map(number).collect();
        assert_eq!(numbers[0], 0, "it is not refused");
        prefix.truncate(numbers[3]);
        period.truncate(numbers[4]);
        (numbers[1..].to_vec(), prefix, period)
    }

    /// Holds the checker's search and the library's call to what is plainly found; answers whether there is a lasso.
    fn hold(
        plainly: impl FnOnce(&mut [u8], &mut [u8]) -> Inclusion,
        checked: impl FnOnce(&mut [u8], &mut [u8]) -> Inclusion,
        library: (Vec<usize>, Vec<u8>, Vec<u8>),
    ) -> bool {
        let (mut prefix, mut period) = (vec![0; CELLS], vec![0; CELLS]);
        let inclusion = plainly(&mut prefix, &mut period);
        let (mut checked_prefix, mut checked_period) = (vec![0; CELLS], vec![0; CELLS]);
        assert_eq!(checked(&mut checked_prefix, &mut checked_period), inclusion);
        assert_eq!((&checked_prefix, &checked_period), (&prefix, &period));
        let mut numbers = inclusion_numbers(inclusion);
        numbers.resize(8, 0);
        prefix.truncate(numbers[2]);
        period.truncate(numbers[3]);
        assert_eq!(library, (numbers, prefix, period));
        matches!(inclusion, Inclusion::Missing { .. })
    }

    #[test]
    fn the_library_and_the_checker_agree_with_it() {
        let mut random = Random::new(8);
        let mut search = Search::default();
        let (mut missing, mut contained, mut found, mut empty) = (0, 0, 0, 0);
        for _ in 0..1500 {
            let (first, second) = pair(&mut random);
            let (first, second) = (first.pack(), second.pack());
            let (sheet1, sheet2) = (Cells::from(&first), Cells::from(&second));
            let is_missing = hold(
                |prefix, period| compare(&first, Some(&second), prefix, period).unwrap(),
                |prefix, period| search.compare(&first, &second, prefix, period).unwrap(),
                called(|prefix, period, work, answer| {
                    library::compare_in(sheet1, sheet2, prefix, period, work, answer)
                }),
            );
            *(if is_missing { &mut missing } else { &mut contained }) += 1;
            let is_found = hold(
                |prefix, period| compare(&first, None, prefix, period).unwrap(),
                |prefix, period| first_accepted(&mut search, CELLS, &first, prefix, period).unwrap(),
                called(|prefix, period, work, answer| library::emptiness(sheet1, prefix, period, work, answer)),
            );
            *(if is_found { &mut found } else { &mut empty }) += 1;
        }
        println!("{missing} missing, {contained} contained; {found} found, {empty} empty");
        assert!(missing > 300 && contained > 300 && found > 300 && empty > 100);
    }
}
