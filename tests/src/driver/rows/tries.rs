//! 01's own rows: sheets and shows to try, starred or not, and the sheet as text.

use super::{note, plain, row, table, Row};
use crate::driver::line::print;

pub fn rows() -> Vec<Row> {
    let mut rows = starred();
    rows.extend(others());
    rows
}

fn starred() -> Vec<Row> {
    table(&[
        ("01, sheets and shows to try, starred: B, (-, 0): accepted, i 0, j 1", ""),
        ("verdict B - 0", "accepted 0 1 0 1"),
        ("B, (0, 1): rejected", ""),
        ("verdict B 0 1", "rejected 0 1 0 0"),
        ("C, (-, 0): rejected; C, (-, 0 0): accepted", ""),
        ("verdict C - 0", "rejected 0 1 0 1"),
        ("verdict C - 0,0", "accepted 0 1 0 0"),
        ("E, (-, 0): i 1, j 2, place 1, accepted; E, (0 0, 0): i 0, j 2, place 2, rejected", ""),
        ("verdict E - 0", "accepted 1 2 1 0"),
        ("verdict E 0,0 0", "rejected 0 2 2 0"),
        ("C and D intersected, (-, 0): accepted, though C rejects it", ""),
        ("intersection C D 14*9", "filled 14 | 1,3*2,1,0,1,0,1,0,1,0,1,0"),
        ("verdict 1,3*2,1,0,1,0,1,0,1,0,1,0 - 0", "accepted 0 2 0 0"),
        ("complement of A: 2 1 1 0 0 0 0 0", ""),
        ("complement A 8*9", "filled 8 | 2,2*1,5*0"),
        ("A in B: missing, R 1, show (-, 1)", ""),
        ("compare A B 9 9 4*9", "missing 1 0 1 0 0 0 0 | 9 1 3*0,9"),
        ("D in C: contained, R 2", ""),
        ("compare D C 9 9 6*9", "contained 2 0 0 0 0 0 0 | 9 9 6*0"),
        ("emptiness of B: show (-, 0)", ""),
        ("emptiness B 9 9 3*9", "found 1 0 1 0 1 0 0 | 9 0 3*0"),
        ("cursor, opening 5, loop 7 8: 5 7 8 7 8", ""),
        ("start 5", "cursor opening 0"),
        ("step opening 0 5 7,8", "passed 5 loop 0"),
        ("step loop 0 5 7,8", "passed 7 loop 1"),
        ("step loop 1 5 7,8", "passed 8 loop 0"),
        ("step loop 0 5 7,8", "passed 7 loop 1"),
        ("step loop 1 5 7,8", "passed 8 loop 0"),
    ])
}

fn others() -> Vec<Row> {
    // The product of 4 and 8 places that are all alike: 32 places, each with one loop place, which is marked.
    let mut product: Vec<u8> = vec![1, 32];
    product.extend([1; 32]);
    product.extend([0; 32]);
    product.extend([0, 1].repeat(32));
    let product = format!("filled 130 | {}", print(&product));
    let [four, eight, three, eleven] = [4, 8, 3, 11].map(|states| plain(1, states, 1, 1));
    let mut rows = table(&[
        ("01, not starred: s = 32: read; s = 33: 2", ""),
        ("check 32,2*1,64*0,1", "valid 32 1 1"),
        ("check 33,2*1,66*0,1", "refused 2 first 0"),
        ("verdict 32,2*1,64*0,1 31,0 0,31", "accepted 0 1 0 0"),
        ("A in B, 3 work cells: answered; 2: 22, place 3", ""),
        ("compare A B - 9 3*9", "missing 1 0 1 0 0 0 0 | - 1 3*0"),
        ("compare A B - 9 2*9", "refused 22 work 3 | - 9 2*9"),
        ("10 bytes of B: 1, place 10; 11: read", ""),
        ("check 2,1,2,0,0,1,0,1,1,0", "refused 1 first 10"),
        ("check B", "valid 2 1 2"),
    ]);
    rows.push(note("product of 4 and 8 places: N 32 allowed; of 3 and 11: 20"));
    rows.push(row(&format!("intersection {four} {eight} 130*9"), &product));
    rows.push(row(&format!("union {eight} {four} 130*9"), &product));
    rows.push(row(&format!("intersection {three} {eleven} 130*9"), "refused 20 out 33 | 130*9"));
    rows.push(row(&format!("union {eleven} {three} 130*9"), "refused 20 out 33 | 130*9"));
    rows
}
