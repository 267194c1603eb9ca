//! Whether every lasso that closes in both sheets and is accepted by the first is accepted by the second; if not, the first that
//! is not: shorter prefixes first, among those of one length by their letters, then periods in the same manner.
//!
//! A breadth-first search with rising letters meets each pair of leading states by its first prefix. From each pair in that order a
//! second search meets each combination of a pair and two progress states by its first period, which is never empty. The progress
//! automata are those of the pair it starts from. What it looks for is a combination with that pair again, a marked progress state of
//! the first sheet and an unmarked one of the second.

use crate::sheet::{Part, Refusal, Sheet, MOST};
use crate::standing::Standing;

/// The cells that the players' comparison has.
pub const CELLS: usize = 8192;
/// The most cells that a comparison may need here: a place in the queue has 16 bits.
pub const MOST_CELLS: usize = u16::MAX as usize;
const PAIRS: usize = MOST * MOST;

/// The cells that a comparison needs: one for each pair and one for each combination, reached or not.
pub fn cells_needed(first: &Sheet, second: &Sheet) -> usize {
    let pairs = first.states * second.states;
    pairs + pairs * first.largest_size() * second.largest_size()
}

/// Of a counterexample: its lengths, and where it takes each sheet.
#[derive(Clone, Copy, Debug, PartialEq, Eq)]
pub enum Inclusion {
    Contained { reached: usize },
    Missing { reached: usize, prefix: usize, period: usize, standings: [Standing; 2] },
}

impl Inclusion {
    /// Walks the counterexample, which stands at the start of `prefix` and `period`, through both packed sheets: each must come to
    /// where the search says.
    pub fn assert_walked(&self, sheets: [&[u8]; 2], prefix: &[u8], period: &[u8]) {
        if let Inclusion::Missing { prefix: prefix_length, period: period_length, standings, .. } = *self {
            let walked = sheets.map(|bytes| {
                let sheet = Sheet::read(bytes, Part::First).expect("the sheets were in order");
                Standing::walked(&sheet, &prefix[..prefix_length], &period[..period_length])
            });
            assert_eq!(standings, walked, "the search and the walk come to other states");
        }
    }
}

/// How a search met a node: from which node (by its place in the queue) and by which letter.
#[derive(Clone, Copy, Default)]
struct Step {
    from: u16,
    letter: u16,
}

/// A combination in the queue: its pair, its two progress states taken together, the step to it.
#[derive(Clone, Copy, Default)]
struct Node {
    pair: u16,
    progress: u16,
    step: Step,
}

/// What is known of a combination.
const NEW: u8 = 0;
const MET: u8 = 1;
const WANTED_AND_NEW: u8 = 2;

/// All the room that a comparison needs, allocated once.
pub struct Search {
    letters: usize,
    /// Pairs in the order in which they are reached: the leading states of each, the step to it, and a row of next pairs.
    pairs: Vec<(u8, u8)>,
    pair_steps: Vec<Step>,
    pair_next: Vec<u16>,
    /// The number of a pair in that order, by its two states, or PAIRS.
    pair_number: Vec<u16>,
    /// Progress states of the pair at hand, taken two together: rows of next ones, and which are marked in the first sheet only.
    progress_next: Vec<u16>,
    wanted: Vec<bool>,
    /// Combinations of a pair and two progress states: the queue, and what is known of each.
    nodes: Vec<Node>,
    signs: Vec<u8>,
}

impl Default for Search {
    fn default() -> Self {
        Search {
            letters: 0,
            pairs: vec![(0, 0); PAIRS],
            pair_steps: vec![Step::default(); PAIRS],
            pair_next: vec![0; PAIRS * MOST],
            pair_number: vec![0; PAIRS],
            progress_next: vec![0; PAIRS * MOST],
            wanted: vec![false; PAIRS],
            nodes: vec![Node::default(); CELLS + 1],
            signs: vec![NEW; CELLS],
        }
    }
}

impl Search {
    /// Compares two packed sheets with the players' cells.
    pub fn compare(
        &mut self,
        first: &[u8],
        second: &[u8],
        prefix: &mut [u8],
        period: &mut [u8],
    ) -> Result<Inclusion, Refusal> {
        self.compare_within(CELLS, first, second, prefix, period)
    }

    /// Compares two packed sheets with so many cells. A counterexample is put at the start of `prefix` and `period`, where both are
    /// long enough.
    pub fn compare_within(
        &mut self,
        cells: usize,
        first: &[u8],
        second: &[u8],
        prefix: &mut [u8],
        period: &mut [u8],
    ) -> Result<Inclusion, Refusal> {
        let [reached, pair, node, prefix, period] = self.find(cells, first, second, prefix, period)?;
        if period == 0 {
            return Ok(Inclusion::Contained { reached });
        }
        Ok(Inclusion::Missing { reached, prefix, period, standings: self.standings(second, pair, node) })
    }

    /// How many pairs are reached; of the first counterexample, which is handed over, the pair that its search began from, where in the
    /// queue it ends, and its lengths, all 0 if there is none. In numbers: a type with cases costs the search a third of its speed.
    fn find(
        &mut self,
        cells: usize,
        first: &[u8],
        second: &[u8],
        prefix: &mut [u8],
        period: &mut [u8],
    ) -> Result<[usize; 5], Refusal> {
        let first = Sheet::read(first, Part::First)?;
        let second = Sheet::read(second, Part::Second)?;
        if first.letters != second.letters {
            return Err(Refusal { number: 7, part: Part::Second, place: 0 });
        }
        let needed = cells_needed(&first, &second);
        if needed > cells {
            return Err(Refusal { number: 22, part: Part::Work, place: needed });
        }
        assert!(needed <= MOST_CELLS, "{needed} cells are more than a search here can have");
        if needed > self.signs.len() {
            self.nodes.resize(needed + 1, Node::default());
            self.signs.resize(needed, NEW);
        }
        self.letters = first.letters;
        let reached = self.reach_pairs(&first, &second);
        for start in 0..reached {
            let size = self.take_progress(&first, &second, start);
            if !self.wanted[..size].contains(&true) {
                continue;
            }
            if let Some(node) = self.search_from(start, size, reached) {
                let (prefix, period) = self.hand_over(start, node, prefix, period)?;
                return Ok([reached, start, node, prefix, period]);
            }
        }
        Ok([reached, 0, 0, 0, 0])
    }

    /// How many combinations the last search of a pair met.
    pub fn combinations_met(&self) -> usize {
        self.signs.iter().filter(|&&sign| sign == MET).count()
    }

    /// Finds the pairs of leading states that some prefix reaches, in the order of their first prefixes, and answers how many.
    fn reach_pairs(&mut self, first: &Sheet, second: &Sheet) -> usize {
        let letters = self.letters;
        let (rows1, rows2) = (first.leading().next, second.leading().next);
        self.pair_number[..first.states * second.states].fill(PAIRS as u16);
        self.pair_number[0] = 0;
        self.pairs[0] = (0, 0);
        let (mut head, mut tail) = (0, 1);
        while head < tail {
            let (state1, state2) = self.pairs[head];
            let row1 = &rows1[state1 as usize * letters..][..letters];
            let row2 = &rows2[state2 as usize * letters..][..letters];
            let row = &mut self.pair_next[head * letters..][..letters];
            for (letter, ((&next1, &next2), next)) in row1.iter().zip(row2).zip(row).enumerate() {
                let number = &mut self.pair_number[next1 as usize * second.states + next2 as usize];
                if *number == PAIRS as u16 {
                    *number = tail as u16;
                    self.pairs[tail] = (next1, next2);
                    self.pair_steps[tail] = Step { from: head as u16, letter: letter as u16 };
                    tail += 1;
                }
                *next = *number;
            }
            head += 1;
        }
        tail
    }

    /// Takes the two progress automata of a pair together, and answers how many progress states they have together.
    fn take_progress(&mut self, first: &Sheet, second: &Sheet, pair: usize) -> usize {
        let letters = self.letters;
        let (state1, state2) = self.pairs[pair];
        let (automaton1, automaton2) = (first.progress(state1 as usize), second.progress(state2 as usize));
        let (size1, size2) = (automaton1.marks.len(), automaton2.marks.len());
        let mut rows = self.progress_next.chunks_exact_mut(letters);
        let mut wanted = self.wanted.iter_mut();
        for (row1, &mark1) in automaton1.next.chunks_exact(letters).zip(automaton1.marks) {
            for (row2, &mark2) in automaton2.next.chunks_exact(letters).zip(automaton2.marks) {
                let row = rows.next().expect("there is room for all");
                for ((next, &next1), &next2) in row.iter_mut().zip(row1).zip(row2) {
                    *next = next1 as u16 * size2 as u16 + next2 as u16;
                }
                *wanted.next().expect("there is room for all") = mark1 == 1 && mark2 == 0;
            }
        }
        size1 * size2
    }

    /// Searches the periods of one pair; answers where in the queue the first wanted combination stands.
    fn search_from(&mut self, start: usize, size: usize, reached: usize) -> Option<usize> {
        let letters = self.letters;
        let signs = &mut self.signs[..reached * size];
        signs.fill(NEW);
        for (sign, &wanted) in signs[start * size..].iter_mut().zip(&self.wanted[..size]) {
            *sign = if wanted { WANTED_AND_NEW } else { NEW };
        }
        // The start is in the queue but not met: only a period that is not empty meets it.
        self.nodes[0] = Node { pair: start as u16, ..Node::default() };
        let (mut head, mut tail) = (0, 1);
        while head < tail {
            let Node { pair, progress, .. } = self.nodes[head];
            let pair_row = &self.pair_next[pair as usize * letters..][..letters];
            let progress_row = &self.progress_next[progress as usize * letters..][..letters];
            for (letter, (&pair, &progress)) in pair_row.iter().zip(progress_row).enumerate() {
                let sign = &mut signs[pair as usize * size + progress as usize];
                // The node is written in any case and stays if the combination is new: a branch on that would be hard to foresee.
                let step = Step { from: head as u16, letter: letter as u16 };
                self.nodes[tail] = Node { pair, progress, step };
                if *sign == WANTED_AND_NEW {
                    return Some(tail);
                }
                tail += (*sign == NEW) as usize;
                *sign = MET;
            }
            head += 1;
        }
        None
    }

    /// Where the counterexample takes the two sheets: the pair that its search began from, and the progress states that it met last. The
    /// sizes stand in the second sheet from byte 2 on.
    fn standings(&self, second: &[u8], pair: usize, node: usize) -> [Standing; 2] {
        let (waits1, waits2) = self.pairs[pair];
        let (progress, size2) = (self.nodes[node].progress as usize, second[2 + waits2 as usize] as usize);
        [(waits1, progress / size2), (waits2, progress % size2)]
            .map(|(waits, ends)| Standing { waits: waits as usize, ends })
    }

    /// Fills both parts of the counterexample and answers their lengths; fills neither where one is too short.
    fn hand_over(
        &self,
        pair: usize,
        found: usize,
        prefix: &mut [u8],
        period: &mut [u8],
    ) -> Result<(usize, usize), Refusal> {
        let pair_step = |node: usize| self.pair_steps[node];
        let step = |node: usize| self.nodes[node].step;
        let lengths = (word_length(pair, pair_step), word_length(found, step));
        if prefix.len() < lengths.0 {
            return Err(Refusal { number: 23, part: Part::Opening, place: lengths.0 });
        }
        if period.len() < lengths.1 {
            return Err(Refusal { number: 23, part: Part::Loop, place: lengths.1 });
        }
        fill_word(pair, pair_step, &mut prefix[..lengths.0]);
        fill_word(found, step, &mut period[..lengths.1]);
        Ok(lengths)
    }
}

/// How many steps lead from node 0 of a search to a node.
fn word_length(mut node: usize, step: impl Fn(usize) -> Step) -> usize {
    let mut length = 0;
    while node != 0 {
        node = step(node).from as usize;
        length += 1;
    }
    length
}

/// Writes the letters of those steps, the last one first.
fn fill_word(mut node: usize, step: impl Fn(usize) -> Step, word: &mut [u8]) {
    for letter in word.iter_mut().rev() {
        let Step { from, letter: by } = step(node);
        *letter = by as u8;
        node = from as usize;
    }
}
