//! Where a lasso that a comparison found takes a sheet: what the papers call `waits` and `ends`.

use crate::sheet::Sheet;

/// All 0 where there is no lasso, or no second sheet.
#[derive(Clone, Copy, Debug, Default, PartialEq, Eq)]
pub struct Standing {
    /// The leading state after the prefix.
    pub waits: usize,
    /// The state after one turn of the period, from state 0, in the progress automaton of that leading state.
    pub ends: usize,
}

impl Standing {
    /// By the definition, letter by letter.
    pub fn walked(sheet: &Sheet, prefix: &[u8], period: &[u8]) -> Self {
        let walk = |next: &[u8], word: &[u8]| {
            word.iter().fold(0, |state, &letter| next[state * sheet.letters + letter as usize] as usize)
        };
        let waits = walk(sheet.leading().next, prefix);
        Standing { waits, ends: walk(sheet.progress(waits).next, period) }
    }
}

#[cfg(test)]
mod tests {
    use super::*;
    use crate::inclusion::{Inclusion, Search, CELLS};
    use crate::mix::sheet_pair;
    use crate::random::Random;
    use crate::rows::{LEFT, RIGHT};
    use crate::sheet::Part;
    use crate::verdict::{verdict, Verdict};

    /// A lasso found closes in both sheets, so the verdicts on it have the same two states.
    #[test]
    fn agrees_with_the_verdicts_on_what_was_found() {
        let mut random = Random::new(7);
        let mut search = Search::default();
        let (mut prefix, mut period) = ([0; CELLS], [0; CELLS]);
        let (mut found, mut other) = (0, 0);
        for _ in 0..20_000 {
            let (_, first, second) = sheet_pair(&mut random);
            let answer = search.compare(&first, &second, &mut prefix, &mut period);
            let Ok(Inclusion::Missing { prefix: length1, period: length2, standings, .. }) = answer else { continue };
            for ((sheet, accepted), standing) in [(&first, true), (&second, false)].into_iter().zip(standings) {
                let given = verdict(sheet, &prefix[..length1], &period[..length2]);
                let Standing { waits, ends } = standing;
                assert_eq!(given, Ok(Verdict { accepted, before: 0, turns: 1, leading: waits, end: ends }));
                other += (waits > 0 && ends > 0 && waits != ends) as usize;
            }
            found += 1;
        }
        assert!(found > 5000 && other > 500, "{found} {other}");
    }

    /// The rows' sheets tell the definition from what it may be taken for, each of the two.
    #[test]
    fn other_readings_end_elsewhere() {
        for (bytes, due, two_turns, from_start) in [(LEFT, (2, 1), 2, 2), (RIGHT, (3, 4), 3, 1)] {
            let sheet = Sheet::read(bytes, Part::First).unwrap();
            let Standing { waits, ends } = Standing::walked(&sheet, &[0; 3], &[0; 2]);
            assert_eq!((waits, ends), due);
            assert_eq!(Standing::walked(&sheet, &[0; 3], &[0; 4]).ends, two_turns);
            assert_eq!(Standing::walked(&sheet, &[], &[0; 2]).ends, from_start, "in the progress automaton of state 0");
            assert!(![two_turns, from_start].contains(&ends));
        }
    }
}
