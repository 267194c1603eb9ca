//! Carts (F-7): up to 64 lassos one after the other, each as its two lengths and its letters. A cart is loaded, which
//! copies it to the out slice, only where a sheet accepts all of them.

use crate::lent::{fill, room};
use crate::sheet::{Part, Refusal};
use crate::verdict::Judge;

/// The most lassos of a cart.
pub const MOST_SHOWS: usize = 64;
/// The bytes of a lasso's two lengths.
pub const HEADER: usize = 4;

#[derive(Clone, Copy, Debug, PartialEq, Eq)]
pub enum Answer {
    /// The cart's length.
    Loaded(usize),
    /// The index of the first lasso that is not accepted.
    Rejected(usize),
}

impl Answer {
    /// The numbers of the answer slice, but for the leading 0.
    pub fn numbers(self) -> Vec<usize> {
        match self {
            Answer::Loaded(length) => vec![1, length],
            Answer::Rejected(index) => vec![0, index],
        }
    }
}

/// A lasso of a cart, and the place of its first letter in the cart.
#[derive(Clone, Copy, Default)]
pub struct Show<'a> {
    pub place: usize,
    pub prefix: &'a [u8],
    pub period: &'a [u8],
}

/// Copies a cart to the out slice where the sheet accepts each of its lassos.
pub fn load(sheet: &[u8], cart: &[u8], out: &mut [u8]) -> Result<Answer, Refusal> {
    let judge = Judge::new(sheet)?;
    let mut shows = [Show::default(); MOST_SHOWS];
    let count = shows_of(cart, &mut shows)?;
    let shows = &shows[..count];
    shows.iter().try_for_each(|show| show.judge_letters(judge.letters()))?;
    room(Part::Out, out.len(), cart.len())?;
    for (index, show) in shows.iter().enumerate() {
        if !judge.verdict(show.prefix, show.period)?.accepted {
            return Ok(Answer::Rejected(index));
        }
    }
    fill(out, cart).map(Answer::Loaded)
}

/// Finds the lassos of a cart, and answers how many they are; or refusal 28, for no byte or another length, or 27, for
/// another count.
pub fn shows_of<'a>(cart: &'a [u8], shows: &mut [Show<'a>; MOST_SHOWS]) -> Result<usize, Refusal> {
    let refusal = |number, place| Refusal { number, part: Part::Second, place };
    let wrong_length = refusal(28, cart.len());
    let (&count, mut rest) = cart.split_first().ok_or(wrong_length)?;
    let count = count as usize;
    let shows = if count > 0 { shows.get_mut(..count) } else { None };
    for show in shows.ok_or(refusal(27, 0))? {
        (*show, rest) = first_show(rest).ok_or(wrong_length)?;
        show.place = cart.len() - rest.len() - show.period.len() - show.prefix.len();
    }
    if rest.is_empty() {
        Ok(count)
    } else {
        Err(wrong_length)
    }
}

/// The lasso that bytes begin with, its place left open, and what comes after it; none where they end early.
fn first_show(bytes: &[u8]) -> Option<(Show<'_>, &[u8])> {
    let (header, rest) = bytes.split_first_chunk::<HEADER>()?;
    let [before, turn] = [0, 2].map(|at| u16::from_le_bytes([header[at], header[at + 1]]) as usize);
    let (prefix, rest) = rest.split_at_checked(before)?;
    let (period, rest) = rest.split_at_checked(turn)?;
    Some((Show { place: 0, prefix, period }, rest))
}

impl Show<'_> {
    /// Refusals 9, 8 and 9, with places in the cart; letters are to be below a count.
    pub fn judge_letters(&self, letters: usize) -> Result<(), Refusal> {
        let loop_place = self.place + self.prefix.len();
        known(Part::Opening, self.place, self.prefix, letters)?;
        if self.period.is_empty() {
            return Err(Refusal { number: 8, part: Part::Loop, place: loop_place });
        }
        known(Part::Loop, loop_place, self.period, letters)
    }
}

/// Refusal 9 at the first letter of a word, which begins at some place, that is not below the count. The largest letter
/// is found many letters at a time; only where it is too large they are looked at one by one.
fn known(part: Part, place: usize, word: &[u8], letters: usize) -> Result<(), Refusal> {
    let most = word.iter().fold(0, |most, &letter| letter.max(most));
    if (most as usize) < letters {
        return Ok(());
    }
    let at = word.iter().position(|&letter| letter as usize >= letters);
    at.map_or(Ok(()), |at| Err(Refusal { number: 9, part, place: place + at }))
}

/// The cart of lassos; a count above 255, or more than 65,535 letters of a part, has none.
pub fn pack(shows: &[(Vec<u8>, Vec<u8>)]) -> Vec<u8> {
    let mut cart = vec![u8::try_from(shows.len()).expect("the count is a byte")];
    for (prefix, period) in shows {
        for part in [prefix, period] {
            cart.extend(u16::try_from(part.len()).expect("a length has 16 bits").to_le_bytes());
        }
        cart.extend(prefix);
        cart.extend(period);
    }
    cart
}

#[cfg(test)]
mod tests {
    use super::*;
    use crate::case::put_unknown;
    use crate::generate;
    use crate::naive::Family;
    use crate::random::Random;
    use crate::rows::{B, E};

    fn refused(number: usize, part: Part, place: usize) -> Result<Answer, Refusal> {
        Err(Refusal { number, part, place })
    }

    /// B accepts a loop that has scene 0; by hand: (-, 0) and (1, 1 0).
    #[test]
    fn a_cart_is_a_count_then_lengths_and_scenes() {
        let cart = [2, 0, 0, 1, 0, 0, 1, 0, 2, 0, 1, 1, 0];
        assert_eq!(pack(&[(vec![], vec![0]), (vec![1], vec![1, 0])]), cart);
        let mut out = [9; 15];
        assert_eq!(load(B, &cart, &mut out), Ok(Answer::Loaded(13)));
        assert_eq!((&out[..13], &out[13..]), (&cart[..], &[9, 9][..]));
        assert_eq!(load(B, &cart, &mut out[..12]), refused(21, Part::Out, 13));
        let mut out = [9; 15];
        // (-, 0) and (1, 1): the second has no scene 0 in its loop.
        assert_eq!(load(B, &[2, 0, 0, 1, 0, 0, 1, 0, 1, 0, 1, 1], &mut out), Ok(Answer::Rejected(1)));
        assert_eq!(out, [9; 15]);
        // 002's verdict: E accepts (-, 0), which closes after one turn, and rejects (0 0, 0).
        assert_eq!(load(E, &pack(&[(vec![], vec![0])]), &mut out), Ok(Answer::Loaded(6)));
        assert_eq!(load(E, &pack(&[(vec![0, 0], vec![0])]), &mut out), Ok(Answer::Rejected(0)));
        // 258 is 2, 1.
        let long = pack(&[(vec![0; 258], vec![0; 513])]);
        assert_eq!((&long[..5], long.len()), (&[1, 2, 1, 1, 2][..], 776));
    }

    #[test]
    fn faults_are_judged_in_the_order_of_the_papers() {
        let load = |sheet: &[u8], cart: &[u8]| load(sheet, cart, &mut []);
        assert_eq!(load(&[2], &[]), refused(1, Part::First, 1));
        assert_eq!(load(B, &[]), refused(28, Part::Second, 0));
        assert_eq!(load(B, &[0]), refused(27, Part::Second, 0));
        assert_eq!(load(B, &[0, 7]), refused(27, Part::Second, 0));
        assert_eq!(load(B, &[65]), refused(27, Part::Second, 0));
        // A scene that is unknown in the first show, and a second that ends early or has a byte more.
        let cart = [2, 1, 0, 0, 0, 2, 0, 0, 1, 0, 2];
        for length in 1..cart.len() {
            assert_eq!(load(B, &cart[..length]), refused(28, Part::Second, length));
        }
        assert_eq!(load(B, &[&cart[..], &[0]].concat()), refused(28, Part::Second, 12));
        assert_eq!(load(B, &cart), refused(9, Part::Opening, 5));
        assert_eq!(load(B, &[2, 1, 0, 0, 0, 1, 0, 0, 1, 0, 2]), refused(8, Part::Loop, 6));
        assert_eq!(load(B, &[2, 1, 0, 1, 0, 1, 1, 0, 0, 1, 0, 2]), refused(9, Part::Loop, 11));
        assert_eq!(load(B, &[1, 0, 0, 0, 0]), refused(8, Part::Loop, 5));
        assert_eq!(load(B, &[1, 0, 0, 1, 0, 1]), refused(21, Part::Out, 6));
    }

    /// What is due is had from the shows as they were before they were packed, and from the definitions taken word for
    /// word.
    #[test]
    fn agrees_with_the_definitions_taken_word_for_word() {
        let mut random = Random::new(17);
        let mut met = [0; 6];
        for _ in 0..20_000 {
            let draft = generate::sheet(&mut random);
            let (sheet, letters) = (draft.pack(), draft.letters);
            let family = Family::unpack(&sheet);
            let mut shows: Vec<(Vec<u8>, Vec<u8>)> = Vec::new();
            for _ in 0..random.between(1, 4) {
                let (before, turn) = (random.below(4), random.between(1, 4));
                let (mut prefix, mut period) = (random.word(before, letters), random.word(turn, letters));
                match random.below(24) {
                    0 => put_unknown(&mut random, &mut prefix, letters),
                    1 => put_unknown(&mut random, &mut period, letters),
                    2 => period.clear(),
                    _ => {}
                }
                shows.push((prefix, period));
            }
            let cart = pack(&shows);
            let mut out = vec![77; cart.len() + 2 - random.below(4)];
            let due = due(&family, &shows, cart.len(), out.len());
            let before = out.clone();
            assert_eq!(load(&sheet, &cart, &mut out), due);
            met[match due {
                Ok(Answer::Loaded(length)) => {
                    assert!(out[..length] == cart && out[length..] == before[length..]);
                    0
                }
                Ok(Answer::Rejected(index)) => 1 + (index > 0) as usize,
                Err(Refusal { number: 8, .. }) => 3,
                Err(Refusal { number: 9, .. }) => 4,
                Err(_) => 5,
            }] += 1;
            assert!(matches!(due, Ok(Answer::Loaded(_))) || out == before);
        }
        assert!(met.iter().all(|&count| count > 300), "{met:?}");
    }

    fn due(family: &Family, shows: &[(Vec<u8>, Vec<u8>)], length: usize, lent: usize) -> Result<Answer, Refusal> {
        let mut place = 1;
        for (prefix, period) in shows {
            place += 4;
            for (part, word) in [(Part::Opening, prefix), (Part::Loop, period)] {
                if part == Part::Loop && word.is_empty() {
                    return refused(8, part, place);
                }
                for &letter in word {
                    if letter as usize >= family.letters {
                        return refused(9, part, place);
                    }
                    place += 1;
                }
            }
        }
        if lent < length {
            return refused(21, Part::Out, length);
        }
        let rejected = shows.iter().position(|(prefix, period)| !family.judge(prefix, period).0);
        Ok(rejected.map_or(Answer::Loaded(length), Answer::Rejected))
    }
}
