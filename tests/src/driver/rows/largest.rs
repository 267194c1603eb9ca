//! Searches in as many work cells as the library takes: two sheets of 32 places with loop automata of 32 places, N + N x K = 1,049,600.
//!
//! All places lie on cycles whose lengths have few common divisors. All scenes of a sheet lead to the same place, so the first word of a
//! length is all zeros, and where it leads is a matter of remainders. After t scenes the leading places are t mod 31 and t mod 32: there
//! are 31 x 32 = 992 pairs, and pair 0 comes again after every 992 scenes.

use super::{table, Row};
use crate::driver::line::print;

/// A sheet of 32 places: from 0 a leading cycle of so many, on which each place has the same loop automaton but for the one that is
/// given. The other automata have one place.
struct Rounds {
    letters: u8,
    leading: u8,
    /// Where the loop automaton stands that has 32 places, of which so many are a cycle from 0, and its marks.
    at: u8,
    cycle: u8,
    marks: fn(u8) -> bool,
    /// The mark of the automata with one place.
    others: bool,
}

impl Rounds {
    fn print(&self) -> String {
        let letters = self.letters as usize;
        // Places that are not on the cycle lead to 0.
        let round = |count: u8, cycle: u8| {
            (0..count).flat_map(move |place| vec![if place + 1 < cycle { place + 1 } else { 0 }; letters])
        };
        let size = |place: u8| if place == self.at { 32 } else { 1 };
        let mut sheet = vec![self.letters, 32];
        sheet.extend((0..32).map(size));
        sheet.extend(round(32, self.leading));
        for place in 0..32 {
            if place == self.at {
                sheet.extend(round(32, self.cycle));
                sheet.extend((0..32).map(|end| (self.marks)(end) as u8));
            } else {
                sheet.extend(vec![0; letters]);
                sheet.push(self.others as u8);
            }
        }
        print(&sheet)
    }
}

pub fn rows() -> Vec<Row> {
    let first = |letters, at, cycle, marks| Rounds { letters, leading: 31, at, cycle, marks, others: false }.print();
    let second = |letters, at, cycle, marks| Rounds { letters, leading: 32, at, cycle, marks, others: true }.print();
    let [at_0, but_0] = [first(1, 0, 29, |end| end == 0), second(1, 0, 27, |end| end != 0)];
    let [at_23, but_7] = [first(1, 0, 29, |end| end == 23), second(1, 0, 27, |end| end != 7)];
    let [last_first, last_second] = [first(1, 30, 29, |end| end == 23), second(1, 31, 27, |end| end != 7)];
    let [all, even] = [first(1, 0, 29, |_| true), second(1, 0, 30, |end| end % 2 == 0)];
    let [wide_first, wide_second] = [first(32, 30, 3, |end| end == 1), second(32, 31, 32, |end| end != 0)];
    let [alone, alone_last] = [first(1, 0, 32, |end| end == 1), first(1, 30, 32, |end| end == 1)];
    table(&[
        // The loop is a multiple of 992, of 29 and of 27: 992 x 783.
        ("searches: 1,049,600 cells; a loop of 992 x 29 x 27 = 776,736".to_string(), ""),
        (format!("compare {at_0} {but_0} - 776736*9 1049600*9"), "missing 992 0 776736 0 0 0 0 | - 776736*0 1049600*0"),
        (format!("compare {at_0} {but_0} - 776735*9 1049601*9"), "refused 23 loop 776736 | - 776735*9 1049600*0,9"),
        (format!("compare {at_0} {but_0} - 776736*9 1049599*9"), "refused 22 work 1049600 | - 776736*9 1049599*9"),
        // 992 is 6 mod 29 and 20 mod 27, and 776,736 is 0 of both: 992 less, 775,744 = 992 x 782 is 29 - 6 = 23 and 27 - 20 = 7. No
        // other multiple of 992 up to 776,736 is both, for 29 and 27 have no common divisor, nor has 992 one with either.
        ("searches: the same; the only loop that ends at 23 of 29 and 7 of 27".to_string(), ""),
        (
            format!("compare {at_23} {but_7} - 775745*9 1049600*9"),
            "missing 992 0 775744 0 23 0 7 | - 775744*0,9 1049600*0",
        ),
        // Only at places 30 and 31 is a loop of the first sheet accepted and one of the second not; 991 is the first t that is 30 mod 31 and
        // 31 mod 32.
        ("searches: the same after the longest opening, to the last pair".to_string(), ""),
        (
            format!("compare {last_first} {last_second} 991*9 775744*9 1049600*9"),
            "missing 992 991 775744 30 23 31 7 | 991*0 775744*0 1049600*0",
        ),
        // Loops that close are multiples of 992, so even, and end at even places of 30: all those are accepted. There are odd ones that
        // are not, and the search passes 992 x 29 x 15 = 431,520 combinations before it is sure.
        ("searches: the same; contained, for only even places are come to".to_string(), ""),
        (format!("compare {all} {even} 9 9 1049600*9"), "contained 992 0 0 0 0 0 0 | 9 9 1049600*0"),
        // 32 scenes, two sheets of 32 places: 992 is 2 mod 3, so 1,984 = 2 x 992 is 1, the first multiple that is; it is 0 mod 32.
        ("searches: the same with 32 scenes".to_string(), ""),
        (
            format!("compare {wide_first} {wide_second} 991*9 1984*9 1049600*9"),
            "missing 992 991 1984 30 1 31 0 | 991*0 1984*0 1049600*0",
        ),
        // The loop is a multiple of 31 that is 1 mod 32: 31 x 31 = 961. One sheet needs 32 + 32 x 32 = 1,056 cells.
        ("searches: emptiness of the largest sheets; cells that are not needed stay".to_string(), ""),
        (format!("emptiness {alone} - 961*9 1049600*9"), "found 31 0 961 0 1 0 0 | - 961*0 1056*0,1048544*9"),
        (format!("emptiness {alone_last} 30*9 961*9 1056*9"), "found 31 30 961 30 1 0 0 | 30*0 961*0 1056*0"),
        (format!("emptiness {alone_last} 29*9 961*9 1056*9"), "refused 23 opening 30 | 29*9 961*9 1056*0"),
        (format!("emptiness {alone} - 961*9 1055*9"), "refused 22 work 1056 | - 961*9 1055*9"),
    ])
}
