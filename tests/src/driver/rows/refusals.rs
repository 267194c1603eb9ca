//! A refusal of every number that a call can give, for each call; text refusals are in `texts`.

use super::{note, plain, row, table, Row};
use crate::driver::line::{self, print};

/// Sheets with one fault each: the sheet, the refusal's number and its place.
const FAULTS: [(&str, &str, &str); 14] = [
    ("-", "1", "0"),
    ("2", "1", "1"),
    ("0,1", "2", "0"),
    ("33,1", "2", "0"),
    ("2,0", "3", "1"),
    ("2,33", "3", "1"),
    ("2,2,1", "1", "3"),
    ("2,1,0", "4", "2"),
    ("2,2,1,33", "4", "3"),
    ("2,1,2,0,0,1,0,1,1,0", "1", "10"),
    ("2,1,2,0,0,1,0,1,1,0,1,0", "1", "12"),
    ("2,1,1,0,1,0,0,1", "5", "4"),
    ("2,1,1,0,0,0,1,1", "5", "6"),
    ("2,1,1,0,0,0,0,2", "6", "7"),
];

/// The calls that take a packed sheet: where it stands, the part that is refused, and the lent slices, which are not changed.
const SHEET_CALLS: [(&str, &str, &str); 14] = [
    ("check ?", "first", ""),
    ("verdict ? 9 -", "first", ""),
    ("complement ? 9*7", "first", " | 9*7"),
    ("intersection ? A 9*7", "first", " | 9*7"),
    ("intersection C ? 9*7", "second", " | 9*7"),
    ("union ? A 9*7", "first", " | 9*7"),
    ("union C ? 9*7", "second", " | 9*7"),
    ("compare ? A 2*7 3*8 1*9", "first", " | 2*7 3*8 9"),
    ("compare C ? 2*7 3*8 1*9", "second", " | 2*7 3*8 9"),
    ("emptiness ? 2*7 3*8 1*9", "first", " | 2*7 3*8 9"),
    ("write 3 ? 7 9*7", "first", " | 9*7"),
    ("write 4 ? 0 9*7", "first", " | 9*7"),
    ("pass ? 0,9 - 255", "first", ""),
    ("cart ? - 9*7", "first", " | 9*7"),
];

pub fn rows() -> Vec<Row> {
    let mut rows = Vec::new();
    for (call, part, lent) in SHEET_CALLS {
        rows.push(note(&format!("refusals 1 to 6 of {call}")));
        for (sheet, number, place) in FAULTS {
            rows.push(row(&call.replace('?', sheet), &format!("refused {number} {part} {place}{lent}")));
        }
    }
    rows.extend(others());
    rows.extend(products());
    rows.extend(orders());
    rows
}

fn others() -> Vec<Row> {
    table(&[
        ("verdict: 9 opening, 8, 9 loop", ""),
        ("verdict B 0,2 1", "refused 9 opening 1"),
        ("verdict B 0,2,1,3 1", "refused 9 opening 1"),
        ("verdict B 0 -", "refused 8 loop 0"),
        ("verdict B - -", "refused 8 loop 0"),
        ("verdict B - 0,1,7", "refused 9 loop 2"),
        ("verdict B - 0,7,1,2", "refused 9 loop 1"),
        ("verdict B - 1000*1,255", "refused 9 loop 1000"),
        ("complement: 21, and just enough room", ""),
        ("complement A 7*9", "refused 21 out 8 | 7*9"),
        ("complement A -", "refused 21 out 8 | -"),
        ("complement B 13*9", "filled 11 | 2,1,2,2*0,1,0,3*1,0,2*9"),
        ("comparison: 7, 22, 23", ""),
        ("compare A C 9 9 9*9", "refused 7 second 0 | 9 9 9*9"),
        ("compare D E 2*7 2*8 11*9", "refused 22 work 12 | 2*7 2*8 11*9"),
        ("compare D E 7 2*8 12*9", "refused 23 opening 2 | 7 2*8 12*0"),
        ("compare D E 2*7 8 13*9", "refused 23 loop 2 | 2*7 8 12*0,9"),
        ("compare D E 2*7 2*8 12*9", "missing 3 2 2 0 0 2 0 | 2*0 2*0 12*0"),
        ("compare D E 3*7 4*8 13*9", "missing 3 2 2 0 0 2 0 | 2*0,7 2*0,2*8 12*0,9"),
        ("emptiness: 22, 23; found; empty", ""),
        ("emptiness E 7 2*8 5*9", "refused 22 work 6 | 7 2*8 5*9"),
        ("emptiness E - 2*8 6*9", "refused 23 opening 1 | - 2*8 6*0"),
        ("emptiness E 7 8 7*9", "refused 23 loop 2 | 7 8 6*0,9"),
        ("emptiness E 7 2*8 6*9", "found 3 1 2 1 0 0 0 | 0 2*0 6*0"),
        ("emptiness 2,2*1,5*0 7 8 3*9", "empty 1 0 0 0 0 0 0 | 7 8 2*0,9"),
        ("emptiness 2,2*1,5*0 - - 2*9", "empty 1 0 0 0 0 0 0 | - - 2*0"),
        ("emptiness 1,3,4*1,2,1,6*0 7 8 6*9", "empty 3 0 0 0 0 0 0 | 7 8 6*0"),
        ("cursor: 8, 24", ""),
        ("step opening 0 5 -", "refused 8 loop 0 cursor opening 0"),
        ("step loop 0 5 -", "refused 8 loop 0 cursor loop 0"),
        ("step opening 1 5 7,8", "refused 24 cursor 1 cursor opening 1"),
        ("step loop 2 5 7,8", "refused 24 cursor 2 cursor loop 2"),
        ("number: 11", ""),
        ("number - 0", "refused 11 first 0"),
        ("number 49 1", "refused 11 first 1"),
        ("text reading: 21; text writing: 21", ""),
        ("read B.txt 10*9 2*8", "refused 21 out 11 | 10*9 2*8"),
        ("write 3 B 2*8 93*9", "refused 21 out 94 | 93*9"),
    ])
}

fn products() -> Vec<Row> {
    let mut rows = vec![note("products: 7, 20 for N, 20 for K, 21, and just enough room")];
    let six = plain(1, 1, 6, 1);
    let [three_six, eleven_six] = [3, 11].map(|states| plain(1, states, 6, 1));
    for (call, marks) in [("intersection", "0,1"), ("union", "2*1")] {
        rows.push(row(&format!("{call} A C 9*9"), "refused 7 second 0 | 9*9"));
        rows.push(row(&format!("{call} {three_six} {eleven_six} 9*9"), "refused 20 out 33 | 9*9"));
        rows.push(row(&format!("{call} {six} {six} 9*9"), "refused 20 out 36 | 9*9"));
        rows.push(row(&format!("{call} {} {} 9*9", plain(1, 4, 3, 1), plain(1, 8, 11, 1)), "refused 20 out 33 | 9*9"));
        rows.push(row(&format!("{call} A B 10*9"), "refused 21 out 11 | 10*9"));
        // A has one loop place, which is marked: the product has the places of B, marked as B's or all.
        let product = format!("filled 11 | 2,1,2,2*0,1,0,2*1,{marks}");
        let product = product.replace("2*1,2*1", "4*1");
        rows.push(row(&format!("{call} A B 11*9"), &product));
        rows.push(row(&format!("{call} B A 12*9"), &format!("{product},9")));
    }
    rows.push(note(
        "products: pairs (p, q) have the number p x n2 + q, loop pairs likewise with the size of their own second automaton",
    ));
    // One scene. First: places 0 to 1 to 1; loops of 1 and 2 places. Second: places 0 to 2 to 1 to 0; loops of 3, 1 and 2 places.
    let (first, second) = ("1,2,1,2,1,1,0,1,1,0,0,1", "1,3,3,1,2,2,0,1,1,2,0,1,0,0,0,1,1,1,0,1");
    let head = "1,6,3,1,2,6,2,4,5,3,4,5,3,4";
    let next = ["1,2,0", "0", "1,1", "4,5,3,1,2,0", "1,0", "3,3,1,1"];
    let both = ["1,0,0", "1", "0,1", "0,0,0,1,0,0", "0,1", "0,0,0,1"];
    let either = ["1,1,1", "1", "1,1", "1,0,0,1,1,1", "1,1", "0,1,1,1"];
    for (call, marks) in [("intersection", both), ("union", either)] {
        let automata: Vec<String> = next.iter().zip(marks).map(|(next, marks)| format!("{next},{marks}")).collect();
        let product = line::slice::<u8>(format!("{head},{}", automata.join(",")).as_bytes()).unwrap_or_default();
        let product = format!("filled {} | {},9", product.len(), print(&product));
        rows.push(row(&format!("{call} {first} {second} 51*9"), &product));
    }
    rows
}

/// The order across a call, by lines with two faults or more.
fn orders() -> Vec<Row> {
    let [many, more] = [plain(1, 3, 1, 1), plain(2, 11, 1, 1)];
    let eleven = plain(1, 11, 1, 1);
    let mut rows = table(&[
        ("order: the sheet before the show; opening 9, loop 8, loop 9", ""),
        ("verdict 2,1,1,0,0,0,0,2 9 0", "refused 6 first 7"),
        ("verdict B 0,2 -", "refused 9 opening 1"),
        ("verdict B 2 2", "refused 9 opening 0"),
        ("order: the sheet, the text before 21", ""),
        ("complement 2,1,1,0,0,0,0,2 -", "refused 6 first 7 | -"),
        ("write 3 2,1,1,0,0,0,0,2 - -", "refused 6 first 7 | -"),
        ("read 108,101 - -", "refused 11 first 2 | - -"),
        ("order: first, second, 7, 20, 21", ""),
        ("intersection 2,1,1,0,0,0,0,2 9 -", "refused 6 first 7 | -"),
        ("intersection C 2,1,1,0,0,0,0,2 -", "refused 6 second 7 | -"),
        ("order: first, second, 7, 22, 23 opening, 23 loop", ""),
        ("compare 2,1,1,0,0,0,0,2 9 - - -", "refused 6 first 7 | - - -"),
        ("compare C 2,1,1,0,0,0,0,2 - - -", "refused 6 second 7 | - - -"),
        ("compare A C - - -", "refused 7 second 0 | - - -"),
        ("compare D E - - 11*9", "refused 22 work 12 | - - 11*9"),
        ("compare D E - - 12*9", "refused 23 opening 2 | - - 12*0"),
        ("emptiness E - - 5*9", "refused 22 work 6 | - - 5*9"),
        ("emptiness E - - 6*9", "refused 23 opening 1 | - - 6*0"),
        ("order: cursor 8, then 24", ""),
        ("step opening 9 - -", "refused 8 loop 0 cursor opening 9"),
        ("step loop 9 5 -", "refused 8 loop 0 cursor loop 9"),
    ]);
    rows.push(note("order: 7 before 20, 20 before 21"));
    rows.push(row(&format!("union {many} {more} -"), "refused 7 second 0 | -"));
    rows.push(row(&format!("union {many} {eleven} -"), "refused 20 out 33 | -"));
    rows
}
