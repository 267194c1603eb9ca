//! Automata at random, each imported, and the verdicts of its sheet on lassos at random.

use crate::buchi::{Buchi, MOST_STATES};
use crate::buchi_text::text_of;
use crate::driver::line::print;
use crate::driver::random_automaton::of_sizes;
use crate::driver::random_line::Sent;
use crate::driver::random_show::any_lasso;
use crate::printed::verdict_words;
use crate::random::Random;
use crate::sheet::MOST;
use crate::verdict::{verdict, Verdict};

const AUTOMATA: usize = 800;
const LASSOS: usize = 25;

/// For each automaton a line `import` and, with the sheet that is due for it, lines `verdict`. Whether a lasso is due to be accepted is
/// decided by the automaton's run alone.
pub fn imported_lines(seed: u64) -> impl Iterator<Item = Sent> {
    let mut random = Random::new(seed);
    (0..AUTOMATA).flat_map(move |at| {
        let automaton = automaton(&mut random, at);
        lines_of(&mut random, at, &automaton)
    })
}

/// Each number of states comes up as often; letters are mostly few.
fn automaton(random: &mut Random, at: usize) -> Buchi {
    let most = random.pick(&[2, 4, 8, MOST]);
    let letters = random.between(1, most);
    of_sizes(random, letters, 1 + at % MOST_STATES)
}

fn lines_of(random: &mut Random, at: usize, automaton: &Buchi) -> Vec<Sent> {
    let sheet = automaton.family().pack();
    let (length, cells) = (sheet.len(), print(&sheet));
    let sent = |name: String, line: String, due: String| Sent { name, line: line.into_bytes(), due: due.into_bytes() };
    let text = print(text_of(automaton).as_bytes());
    let import =
        sent(format!("automaton {at}"), format!("import {text} {length}*9"), format!("filled {length} | {cells}"));
    let verdicts = (0..LASSOS).map(|lasso| {
        let (prefix, period) = any_lasso(random, automaton.letters);
        let given = verdict(&sheet, &prefix, &period).expect("sheet and lasso are in order");
        let due = Verdict { accepted: automaton.accepts(&prefix, &period), ..given };
        let line = format!("verdict {cells} {} {}", print(&prefix), print(&period));
        sent(format!("automaton {at}, lasso {lasso}"), line, verdict_words(&due))
    });
    [import].into_iter().chain(verdicts).collect()
}

#[cfg(test)]
mod tests {
    use super::*;
    use crate::driver::calls::answer;
    use crate::inclusion::Search;

    #[test]
    fn the_independent_implementation_prints_what_is_due() {
        let mut search = Search::default();
        let (mut accepted, mut rejected) = (0, 0);
        for Sent { name, line, due } in imported_lines(5) {
            assert_eq!(answer(&line, &mut search), due, "{name}");
            accepted += due.starts_with(b"accepted") as usize;
            rejected += due.starts_with(b"rejected") as usize;
        }
        assert_eq!(accepted + rejected, AUTOMATA * LASSOS);
        assert!(accepted > 4000 && rejected > 4000, "{accepted} {rejected}");
    }
}
