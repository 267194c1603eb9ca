//! Where the lasso found takes each sheet: `waits`, the place after the opening, and `ends`, the place of that place's loop automaton after
//! one turn of the loop.

use super::{row, table, Row};
use crate::driver::line::print;

/// One scene, place 1 after place 0. The loop 0 goes to 1 in the automaton of place 0; in that of place 1 to 2, which alone is marked, and
/// once more to 0.
const LATER_PLACE: &str = "1,2,2*3,5*1,3*0,2,1,3*0,1";

pub fn rows() -> Vec<Row> {
    let mut rows = table(&[
        ("waits and ends: all four above 0, no two alike; exchanged where the sheets' complements are compared the other way", ""),
        ("compare LEFT RIGHT 3*7 2*8 192*9", "missing 4 3 2 2 1 3 4 | 3*0 2*0 192*0"),
        ("compare co-RIGHT co-LEFT 3*7 2*8 192*9", "missing 4 3 2 3 4 2 1 | 3*0 2*0 192*0"),
        ("compare RIGHT LEFT 3*7 2*8 193*9", "missing 4 3 1 3 1 2 2 | 3*0 0,8 192*0,9"),
        ("waits and ends: 0 where there is no show; a refusal has none of them", ""),
        ("compare LEFT LEFT 7 8 90*9", "contained 3 0 0 0 0 0 0 | 7 8 90*0"),
        ("compare LEFT RIGHT 3*7 2*8 191*9", "refused 22 work 192 | 3*7 2*8 191*9"),
        ("compare LEFT RIGHT 2*7 2*8 192*9", "refused 23 opening 3 | 2*7 2*8 192*0"),
        ("compare LEFT RIGHT 3*7 8 192*9", "refused 23 loop 2 | 3*7 8 192*0"),
        ("waits and ends: of the first sheet, of the second; emptiness has no second", ""),
        ("compare HALL co-A 7 2*8 15*9", "missing 3 1 2 2 3 0 0 | 1 1,0 15*0"),
        ("compare A co-HALL 7 2*8 15*9", "missing 3 1 2 0 0 2 3 | 1 1,0 15*0"),
        ("emptiness HALL 7 2*8 15*9", "found 3 1 2 2 3 0 0 | 1 1,0 15*0"),
        ("emptiness LEFT 2*7 2*8 12*9", "found 3 2 2 2 1 0 0 | 2*0 2*0 12*0"),
        ("emptiness RIGHT 3*7 8 24*9", "found 4 3 1 3 1 0 0 | 3*0 0 24*0"),
        ("waits and ends: after one turn of the loop; two turns would end at 0", ""),
        ("emptiness co-C 7 8 3*9", "found 1 0 1 0 1 0 0 | 7 0 3*0"),
        ("compare co-C C 7 8 5*9", "missing 1 0 1 0 1 0 1 | 7 0 5*0"),
        ("waits and ends: in the automaton of the place that waits; that of place 0 would end at 1", ""),
    ]);
    rows.push(row(&format!("emptiness {LATER_PLACE} 7 8 8*9"), "found 2 1 1 1 2 0 0 | 0 0 8*0"));
    rows.push(row(&format!("compare {LATER_PLACE} C 7 8 14*9"), "missing 2 1 1 1 2 0 1 | 0 0 14*0"));
    rows.extend(table(&[("waits and ends: up to 31", "")]));
    let farthest = print(&farthest());
    rows.push(row(&format!("emptiness {farthest} 31*7 31*8 1056*9"), "found 32 31 31 31 31 0 0 | 31*0 31*0 1056*0"));
    rows
}

/// One scene and 32 places one after the other, of which the last stays; it has 32 loop places in the same manner, the last one marked.
fn farthest() -> Vec<u8> {
    let chain = || (1..32).chain([31]);
    let mut sheet = vec![1, 32];
    sheet.extend([1; 31]);
    sheet.push(32);
    sheet.extend(chain());
    sheet.extend([0; 2 * 31]);
    sheet.extend(chain());
    sheet.extend([0; 31]);
    sheet.push(1);
    sheet
}
