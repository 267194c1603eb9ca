//! Every change of one byte of some texts: sheet B's at level three, which is 01's, and at level four for `read`, a show's text of ten lines
//! for `read-show`, and for `import` automata of five places, of twelve, and of twelve scenes. The same of a cart of three shows for `cart`
//! with sheet B.

use crate::driver::calls::answer;
use crate::driver::line::print;
use crate::driver::random_line::Sent;
use crate::driver::rows::{FIVE_PLACES, FOUR_OF_B, TEN_LINES, TEXT_OF_B};
use crate::inclusion::Search;

/// Each text with its call, and slices that have room for one cell more than it fills.
const TEXTS: [(&str, &str, &str); 7] = [
    ("read", TEXT_OF_B, "12*9 3*8"),
    ("read-show", TEN_LINES, "5*8 6*9"),
    ("import", FIVE_PLACES, "168*9"),
    ("import", TWELVE_PLACES, "603*9"),
    ("import", TWELVE_SCENES, "42*9"),
    ("read", FOUR_OF_B, "12*9 3*8"),
    ("cart 2,1,2,0,0,1,0,1,1,0,1", CART, "21*9"),
];

/// The shows (-, 0), (1, 1 0) and (0 1, 0): 1 + 5 + 7 + 7 = 20 bytes.
const CART: &str = "\x03\x00\x00\x01\x00\x00\x01\x00\x02\x00\x01\x01\x00\x02\x00\x01\x00\x00\x01\x00";

/// Texts with numbers of two digits.
const TWELVE_PLACES: &str =
    "[0]\ns0,[0]->[1]\ns0,[1]->[2]\ns0,[2]->[3]\ns0,[3]->[4]\ns0,[4]->[5]\ns0,[5]->[6]\ns0,[6]->[7]\n\
    s0,[7]->[8]\ns0,[8]->[9]\ns0,[9]->[10]\ns0,[10]->[11]\ns0,[11]->[1]\n[4]\n[11]\n";
const TWELVE_SCENES: &str =
    "[0]\ns0,[0]->[0]\ns1,[0]->[0]\ns2,[0]->[0]\ns3,[0]->[0]\ns4,[0]->[0]\ns5,[0]->[0]\ns6,[0]->[0]\n\
    s7,[0]->[0]\ns8,[0]->[0]\ns9,[0]->[0]\ns10,[0]->[0]\ns11,[0]->[0]\n[0]\n";

/// Each byte of each text as every byte, every byte inserted at each place, each byte removed, and the text cut off at each place.
pub fn changed_lines() -> impl Iterator<Item = Sent> {
    TEXTS.into_iter().flat_map(changed_lines_of)
}

fn changed_lines_of((call, text, lent): (&'static str, &'static str, &'static str)) -> impl Iterator<Item = Sent> {
    let mut search = Search::default();
    changed(text.as_bytes()).map(move |(name, text)| {
        let line = format!("{call} {} {lent}", print(&text));
        let due = answer(line.as_bytes(), &mut search);
        Sent { name, line: line.into_bytes(), due }
    })
}

/// The changed texts, each with what was done.
fn changed(text: &'static [u8]) -> impl Iterator<Item = (String, Vec<u8>)> {
    let every_byte = |places: usize| (0..places).flat_map(|at| (0..=u8::MAX).map(move |byte| (at, byte)));
    let other = every_byte(text.len()).map(move |(at, byte)| {
        let mut text = text.to_vec();
        text[at] = byte;
        (format!("byte {at} as {byte}"), text)
    });
    let inserted = every_byte(text.len() + 1).map(move |(at, byte)| {
        let mut text = text.to_vec();
        text.insert(at, byte);
        (format!("byte {byte} inserted at {at}"), text)
    });
    let removed =
        (0..text.len()).map(move |at| (format!("byte {at} removed"), [&text[..at], &text[at + 1..]].concat()));
    let cut = (0..text.len()).map(move |at| (format!("cut off at {at}"), text[..at].to_vec()));
    other.chain(inserted).chain(removed).chain(cut)
}

#[cfg(test)]
mod tests {
    use super::*;
    use std::collections::BTreeMap;

    /// How many lines of a text are answered by which words: a byte changed, inserted, removed, the text cut off.
    fn outcomes(text: usize) -> [BTreeMap<String, usize>; 4] {
        let mut outcomes = [const { BTreeMap::new() }; 4];
        for Sent { name, due, .. } in changed_lines_of(TEXTS[text]) {
            let kind = [" as ", " inserted at ", " removed", "cut off"].iter().position(|kind| name.contains(kind));
            let due = String::from_utf8(due).unwrap();
            let words = if due.starts_with("refused") { 2 } else { 1 };
            let words = due.split(' ').take(words).collect::<Vec<_>>().join(" ");
            *outcomes[kind.unwrap()].entry(words).or_default() += 1;
        }
        outcomes
    }

    fn counts<const N: usize>(counts: [(&str, usize); N]) -> BTreeMap<String, usize> {
        counts.map(|(words, count)| (words.to_string(), count)).into()
    }

    /// Counted by hand, from the numbers 0, 31, 7, 10 and 5, 31, 0, 19, 2.
    #[test]
    fn the_changes_of_the_show_have_the_outcomes_counted_by_hand() {
        // 77 bytes are no digits. Any digit may stand alone; 11, 21, 31 and 30, 31, twice; 10, 20, 30 and 10 to 19; 19, 29 and 10 to 19.
        let read = 77 + 5 * 10 + 2 * (3 + 2) + (3 + 10) + (2 + 10);
        // Twice 41 to 91 and 32 to 39; 40 to 90; 39 to 99. And a line feed as a digit, not after 0, which makes bad form, nor after 2.
        let large = 2 * (6 + 8) + 6 + 7 + 6 * 10;
        let changes = counts([("filled", read), ("refused 9", large), ("refused 11", 90 * 256 - read - large)]);
        let outcomes = outcomes(1);
        assert_eq!(outcomes[0], changes);
        // 10, 20, 30, twice; 17, 27; 15, 25; 12, 22 and 20 to 29.
        assert_eq!(outcomes[1]["filled"], 2 * 3 + 2 + 2 + 2 + 10);
        assert_eq!(outcomes[1].values().sum::<usize>(), 91 * 256);
        // One digit of two.
        assert_eq!(outcomes[2], counts([("filled", 8), ("refused 11", 82)]));
        // Cut off after the names or an opening line; after a loop line; elsewhere.
        let cut = counts([("refused 8", 5), ("filled", 4), ("refused 11", 81)]);
        assert_eq!(outcomes[3], cut);
    }

    /// Counted by hand. B accepts a loop that has scene 0: in each loop there is one.
    #[test]
    fn the_changes_of_the_cart_have_the_outcomes_counted_by_hand() {
        // Every byte as itself; another scene in two openings, of three scenes in all, and the first of the second loop.
        let loaded = 20 + 3 + 1;
        // Of each loop the scene 0 as 1; a scene above 1; the counts 0 and from 65 on; other counts, and other lengths.
        let (rejected, unknown, count) = (3, 7 * 254, 1 + 191);
        let length = 63 + 12 * 255;
        let outcomes = outcomes(6);
        let changes = [("loaded", loaded), ("rejected", rejected), ("refused 9", unknown)];
        let changes = [&changes[..], &[("refused 27", count), ("refused 28", length)]].concat();
        assert_eq!(outcomes[0], counts::<5>(changes.try_into().unwrap()));
        // Without the count, the first byte of the lengths is one: 0. Without its low byte the length of the first loop, and
        // of the last, is its high byte and the scene after it: 0.
        assert_eq!(outcomes[2], counts([("refused 27", 1), ("refused 8", 2), ("refused 28", 17)]));
        assert_eq!(outcomes[3], counts([("refused 28", 20)]));
    }

    /// Counted by hand, from the scenes 0 and 1, the sources 0 to 4, ten targets, of which two are 0, and the accepting places 0 and 3.
    #[test]
    fn the_changes_of_the_automaton_have_the_outcomes_counted_by_hand() {
        // Every byte as itself; four other targets, ten times; 1 and 2 for the first accepting place; 1, 2 and 4 for the last.
        let read = 132 + 10 * 4 + 2 + 3;
        // 5 to 9 for each target and for the last accepting place.
        let beyond = 10 * 5 + 5;
        // Another scene or source; 3 to 9 for the first accepting place, 0 for the last; a digit after each scene 1 and each source but 0.
        let turn = 10 * 9 + 10 * 9 + 7 + 1 + 5 * 10 + 8 * 10;
        let rest = 132 * 256 - read - beyond - turn;
        let changes = [("filled", read), ("refused 5", beyond), ("refused 12", turn), ("refused 11", rest)];
        let outcomes = outcomes(2);
        assert_eq!(outcomes[0], counts(changes));
        // A digit but 0 before each target and the last accepting place; any digit after the eight targets that are not 0, and after it.
        let beyond = 10 * 9 + 9 + 8 * 10 + 10;
        // The same of scenes, of which five are 0, of sources, of which two are 0, and before the first accepting place.
        let turn = (10 * 9 + 5 * 10) + (10 * 9 + 8 * 10) + 9;
        let rest = 133 * 256 - beyond - turn;
        let inserted = [("refused 5", beyond), ("refused 12", turn), ("refused 11", rest)];
        assert_eq!(outcomes[1], counts(inserted));
        assert_eq!(outcomes[2], counts([("refused 11", 132)]));
        // After the first line of place 0 and after each whole place; after the first accepting place.
        let cut = [("refused 13", 1 + 5), ("filled", 1), ("refused 11", 125)];
        assert_eq!(outcomes[3], counts(cut));
    }

    /// Their own texts, and the slices one cell too long for these.
    #[test]
    fn the_other_automata_are_in_order() {
        for (at, length) in [(3, 602), (4, 41)] {
            let (call, text, lent) = TEXTS[at];
            let line = format!("{call} {} {lent}", print(text.as_bytes()));
            let due = String::from_utf8(answer(line.as_bytes(), &mut Search::default())).unwrap();
            assert!(due.starts_with(&format!("filled {length} | ")) && due.ends_with(",9"), "{due}");
        }
    }

    #[test]
    fn the_text_of_b_has_as_many_changes_that_are_read_as_were_once_counted() {
        let [changes, ..] = outcomes(0);
        assert_eq!((changes["filled"], changes.values().sum::<usize>()), (100, 94 * 256));
    }

    /// Counted by hand, from the seconds 7 and 120.
    #[test]
    fn the_changes_of_level_four_have_the_outcomes_counted_by_hand() {
        // Every byte as itself; two marks and four next places turned; 7 as 1 to 9, and 120 digit by digit, no zero before the others.
        let read = 118 + 2 + 4 + 8 + (8 + 9 + 9);
        // The level as 0, 1, 2, 5 to 9, or a digit for the space after it, which makes three digits; the same for scenes and loops.
        let (level, scenes, places, loops) = (8 + 10, 1 + 10, 1, 1 + 10);
        // Next places above 0 in the second block, above 1 in the third; there a digit for what stands after a 1; and loops 1, which makes
        // the third block's first 1 too large.
        let next = 2 * 9 + 4 * 8 + 3 * 10 + 1;
        let marks = 2 * 8 + 10;
        // Two scenes, three places, two loop places, and a digit for the space after loop place 1.
        let turn = 2 * 9 + 3 * 9 + 2 * 9 + 10;
        let zero = 1;
        let rest = 118 * 256 - read - level - scenes - places - loops - next - marks - turn - zero;
        let outcomes = outcomes(5);
        let changes = [
            ("filled", read),
            ("refused 2", scenes),
            ("refused 3", places),
            ("refused 4", loops),
            ("refused 5", next),
            ("refused 6", marks),
            ("refused 10", level),
            ("refused 11", rest),
            ("refused 12", turn),
            ("refused 14", zero),
        ];
        assert_eq!(outcomes[0], counts(changes));
        // 17 to 97 and 70 to 79.
        assert_eq!((outcomes[1]["filled"], outcomes[1].values().sum::<usize>()), (9 + 10, 119 * 256));
        // 20, 10 and 12.
        assert_eq!((outcomes[2]["filled"], outcomes[2].values().sum::<usize>()), (3, 118));
        assert_eq!(outcomes[3], counts([("refused 11", 118)]));
    }
}
