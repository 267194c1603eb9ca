//! The first accepted lasso that closes, if any lasso is accepted.
//!
//! A family with one leading state and no mark closes every lasso and rejects it. Against that family the counterexamples are the
//! accepted lassos that close, the pairs are the leading states, and N and K are those of the sheet alone.

use crate::generate::Draft;
use crate::inclusion::{Inclusion, Search};
use crate::sheet::{Part, Refusal, Sheet};

/// The family that accepts nothing.
pub fn nothing(letters: usize) -> Vec<u8> {
    Draft { letters, leading: vec![0; letters], progress: vec![(vec![0; letters], vec![0])] }.pack()
}

/// `Contained` is empty; `Missing` is found, with the lasso at the start of `prefix` and `period`. There is no second sheet: the family
/// that stands in for it waits and ends at 0, as is due.
pub fn first_accepted(
    search: &mut Search,
    cells: usize,
    sheet: &[u8],
    prefix: &mut [u8],
    period: &mut [u8],
) -> Result<Inclusion, Refusal> {
    let letters = Sheet::read(sheet, Part::First)?.letters;
    search.compare_within(cells, sheet, &nothing(letters), prefix, period)
}

#[cfg(test)]
mod tests {
    use super::*;
    use crate::generate;
    use crate::naive::{first_lasso, reached_states, Family};
    use crate::random::Random;
    use crate::standing::Standing;

    #[test]
    fn agrees_with_the_trial_of_all_short_lassos() {
        let mut random = Random::new(6);
        let mut search = Search::default();
        let (mut empty, mut found) = (0, 0);
        for _ in 0..6000 {
            let letters = random.between(1, 2);
            let sheet = generate::sheet_of(&mut random, letters, |random| random.between(1, 3)).pack();
            let family = Family::unpack(&sheet);
            let (longest_prefix, longest_period) =
                (family.states() - 1, (family.states() * family.largest_size()).min(7));
            let accepted = |prefix: &[u8], period: &[u8]| family.judge(prefix, period).0;
            let closes = |prefix: &[u8], period: &[u8]| family.closing_numbers(prefix, period) == (0, 1);
            let wanted = |prefix: &[u8], period: &[u8]| closes(prefix, period) && accepted(prefix, period);
            let tried = first_lasso(letters, longest_prefix, longest_period, wanted);
            let any = first_lasso(letters, longest_prefix, 4, accepted);

            let (mut u, mut v) = ([0; 8], [0; 16]);
            match first_accepted(&mut search, 12, &sheet, &mut u, &mut v).unwrap() {
                Inclusion::Contained { reached } => {
                    assert_eq!((tried, any), (None, None), "none at all is accepted");
                    assert_eq!(reached, reached_states(&family));
                    empty += 1;
                }
                Inclusion::Missing { reached, prefix, period, standings } => {
                    assert_eq!(reached, reached_states(&family));
                    let lasso = (u[..prefix].to_vec(), v[..period].to_vec());
                    assert!(wanted(&lasso.0, &lasso.1));
                    assert_eq!(standings, [family.standing(&lasso.0, &lasso.1), Standing::default()]);
                    if period <= longest_period {
                        assert_eq!(tried, Some(lasso));
                        found += 1;
                    }
                }
            }
        }
        assert!(empty > 500 && found > 2000, "{empty} {found}");
    }
}
