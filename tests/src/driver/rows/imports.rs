//! Drawn automata (F-3): their sheets, verdicts on these, the largest sizes, and the out slice. What is refused is in `import_edits` and
//! `import_faults`.

use super::import_edits::FIVE_PLACES;
use super::{note, row, Row};
use crate::driver::line::print;

/// An automaton's text, its sheet with its length, and verdicts: opening, loop, and what is stated.
struct Drawn {
    note: &'static str,
    text: &'static str,
    length: usize,
    sheet: &'static str,
    verdicts: &'static [(&'static str, &'static str, &'static str)],
}

const DRAWN: &[Drawn] = &[
    Drawn {
        note: "F-3, import: one place that accepts every show",
        text: "[0]\ns0,[0]->[0]\n[0]\n",
        length: 8,
        sheet: "2*1,2,0,2*1,0,1",
        verdicts: &[("-", "0", "accepted 0 1 0 1"), ("2*0", "3*0", "accepted 0 1 0 1")],
    },
    Drawn {
        note: "import: scene 0 without end; the place after the opening does not count",
        text: "[0]\ns0,[0]->[1]\ns1,[0]->[0]\ns0,[1]->[1]\ns1,[1]->[0]\n[1]\n",
        length: 32,
        sheet: "2*2,2*4,1,0,1,0,3,0,3,1,3,0,3,1,0,1,0,2*1,2,1,3,1,2,1,3,0,1,0,1",
        verdicts: &[
            ("-", "0", "accepted 1 1 1 1"),
            ("-", "1", "rejected 0 1 0 0"),
            ("-", "0,1", "accepted 0 1 0 1"),
            ("1", "1,0", "accepted 1 1 1 1"),
            ("0", "1", "rejected 1 1 0 0"),
            ("3*0", "2*1", "rejected 1 1 0 0"),
        ],
    },
    Drawn {
        note: "import: scene 1 without end",
        text: "[0]\ns0,[0]->[0]\ns1,[0]->[1]\ns0,[1]->[0]\ns1,[1]->[1]\n[1]\n",
        length: 32,
        sheet: "2*2,2*4,0,1,0,1,0,3,1,3,0,3,1,3,0,1,0,1,2,1,3,1,2,1,3,1,0,1,0,1",
        verdicts: &[("2*1", "0", "rejected 1 1 0 0"), ("-", "0,1", "accepted 1 1 1 1")],
    },
    Drawn {
        note: "import: never scene 1; the start is accepting, and is not entered by starting there",
        text: "[0]\ns0,[0]->[0]\ns1,[0]->[1]\ns0,[1]->[1]\ns1,[1]->[1]\n[0]\n",
        length: 32,
        sheet: "2*2,2*4,0,4*1,2,1,3,2*2,2*3,0,1,0,1,2*0,2*1,3,0,3,1,0,1,0,1",
        verdicts: &[("-", "0", "accepted 0 1 0 1"), ("0", "0,1", "rejected 1 1 1 0"), ("1", "0", "rejected 0 1 1 0")],
    },
    Drawn {
        note: "import: scene 1 at most once; two accepting places of three",
        text: "[0]\ns0,[0]->[0]\ns1,[0]->[1]\ns0,[1]->[1]\ns1,[1]->[2]\ns0,[2]->[2]\ns1,[2]->[2]\n[0]\n[1]\n",
        length: 65,
        sheet: "2,3,3*6,0,2*1,3*2,1,3,1,2*3,4,3,5,2*4,2*5,0,1,0,1,0,2*1,2,1,3,2*2,2*3,5,1,5,1,0,1,0,1,0,1,\
                2*0,2*1,3,5,3,2*5,0,5,1,0,1,0,1,0,1",
        verdicts: &[
            ("-", "0", "accepted 0 1 0 1"),
            ("0,1,0", "0", "accepted 0 1 1 1"),
            ("1", "0,1", "rejected 1 1 2 0"),
        ],
    },
    Drawn {
        note: "import: after every scene 0 comes a scene 1; three scenes",
        text: "[0]\ns0,[0]->[1]\ns1,[0]->[0]\ns2,[0]->[0]\ns0,[1]->[1]\ns1,[1]->[0]\ns2,[1]->[1]\n[0]\n",
        length: 42,
        sheet: "3,2,2*4,1,2*0,1,0,1,2,2*1,3,2*1,2,1,2,3,1,3,0,1,0,1,0,3,0,1,3,1,0,2*3,1,2*3,0,1,0,1",
        verdicts: &[("-", "2", "accepted 0 1 0 1"), ("0", "2", "rejected 0 1 1 0"), ("0", "2,1", "accepted 1 1 0 1")],
    },
    Drawn {
        note: "import: scenes 0 and 1 without end; what was entered stays so after the accepting place is left",
        text: "[0]\ns0,[0]->[1]\ns1,[0]->[0]\ns0,[1]->[1]\ns1,[1]->[2]\ns0,[2]->[1]\ns1,[2]->[0]\n[2]\n",
        length: 65,
        sheet: "2,3,3*6,1,0,1,2,1,0,2,0,3,1,2,5,3,5,2,0,3,1,0,1,0,1,0,1,0,3,1,3,0,4,1,5,0,4,1,5,0,1,0,1,0,1,\
                4,2,5,3,4,2,5,3,4,1,5,1,0,1,0,1,0,1",
        verdicts: &[
            ("-", "0,1", "accepted 1 1 2 1"),
            ("-", "0,1,1", "accepted 0 1 0 1"),
            ("0,1", "0", "rejected 1 1 1 0"),
            ("0,1", "1", "rejected 1 1 0 0"),
        ],
    },
    Drawn {
        note: "import: three places in a ring, so that the loop closes after three turns",
        text: "[0]\ns0,[0]->[1]\ns0,[1]->[2]\ns0,[2]->[0]\n[2]\n",
        length: 44,
        sheet: "1,3,3*6,1,2,0,2,3,2*5,0,1,0,1,0,1,0,1,2*3,4,5,0,1,0,1,0,1,0,1,2,3,4,5,2*1,0,1,0,1,0,1",
        verdicts: &[
            ("-", "0", "accepted 0 3 0 1"),
            ("0", "0,0", "accepted 0 3 1 1"),
            ("0,0", "3*0", "accepted 0 1 2 1"),
        ],
    },
    Drawn {
        note: "import: an accepting place that nothing leads to",
        text: "[0]\ns0,[0]->[0]\ns0,[1]->[1]\n[1]\n",
        length: 22,
        sheet: "1,2,2*4,0,1,0,1,2*3,0,1,0,3*1,2,3,0,1,0,1",
        verdicts: &[("-", "0", "rejected 0 1 0 0")],
    },
];

/// The sheet of the automaton of five places: its counts and next places, then a line for each loop automaton (a run of equal cells
/// stands in the first line that it touches).
const FIVE: &str = "2,5,5*10,1,0,2,0,3,4,3,4,2,1,\
    2,1,3,1,4,1,5,1,7,8,7,9,7,8,7,9,4,2,5,3,0,1,0,1,0,1,0,1,0,1,\
    2,9,3,9,5,6,5,7,5,6,5,7,2,0,3,1,0,9,1,9,0,1,0,1,0,1,0,1,0,1,\
    3,4,3,5,3,4,3,5,0,8,1,9,8,7,9,7,0,7,1,7,0,1,0,1,0,1,0,1,0,2*1,\
    2,1,3,8,6,9,7,6,5,7,5,8,5,9,5,1,2,1,3,0,1,0,1,0,1,0,1,0,1,\
    6,4,7,5,4,3,5,3,6,3,7,3,9,0,9,1,9,0,9,1,0,1,0,1,0,1,0,1,0,1";

pub fn rows() -> Vec<Row> {
    let mut rows = Vec::new();
    for drawn in DRAWN {
        let Drawn { length, sheet, .. } = drawn;
        rows.push(note(drawn.note));
        rows.push(import(drawn.text, &format!("{length}*9"), &format!("filled {length} | {sheet}")));
        for (opening, turn, stated) in drawn.verdicts {
            rows.push(row(&format!("verdict {sheet} {opening} {turn}"), stated));
        }
    }
    rows.extend(complement());
    rows.extend(slices());
    rows.extend(sizes());
    rows
}

pub fn import(text: &str, out: &str, stated: &str) -> Row {
    row(&format!("import {} {out}", print(text.as_bytes())), stated)
}

/// A text that is refused with room enough.
pub fn refused(text: &str, refusal: &str) -> Row {
    import(text, "170*9", &format!("refused {refusal} | 170*9"))
}

/// Scene 1 only finitely often: no deterministic Büchi automaton has these shows, but the complement of a sheet.
fn complement() -> Vec<Row> {
    let sheet = "2*2,2*4,0,1,0,1,0,3,1,3,0,3,1,3,1,0,1,0,2,1,3,1,2,1,3,2*1,0,1,0";
    vec![
        note("import: scene 1 finitely often, as the complement of scene 1 without end"),
        row(&format!("complement {} 32*9", DRAWN[2].sheet), &format!("filled 32 | {sheet}")),
        row(&format!("verdict {sheet} 2*1 0"), "accepted 1 1 0 0"),
        row(&format!("verdict {sheet} - 0,1"), "rejected 1 1 1 1"),
    ]
}

fn slices() -> Vec<Row> {
    let mut rows =
        vec![note("import: five places; the out slice just long enough, longer, too short; nothing is changed by 21")];
    for (out, more) in [("167*9", ""), ("168*9", ",9"), ("1000*9", ",833*9")] {
        rows.push(import(FIVE_PLACES, out, &format!("filled 167 | {FIVE}{more}")));
    }
    for out in ["166*9", "100*9", "9", "-"] {
        rows.push(import(FIVE_PLACES, out, &format!("refused 21 out 167 | {out}")));
    }
    rows.push(import(DRAWN[0].text, "7*9", "refused 21 out 8 | 7*9"));
    rows
}

/// The most places and scenes.
fn sizes() -> Vec<Row> {
    let mut rows = vec![note("import: 16 places; the last is accepting, or all are")];
    let last = print(&sheet_of_ring(16, &[15]));
    let all: Vec<usize> = (0..16).collect();
    rows.push(import(&ring(16, &[15]), "1058*9", &format!("filled 1058 | {last}")));
    rows.push(import(&ring(16, &all), "1058*9", &format!("filled 1058 | {}", print(&sheet_of_ring(16, &all)))));
    rows.push(row(&format!("verdict {last} - 0"), "accepted 0 16 0 1"));
    rows.push(row(&format!("verdict {last} 3*0 4*0"), "accepted 0 4 3 1"));
    rows.push(row(&format!("verdict {last} 0 16*0"), "accepted 0 1 1 1"));
    rows.push(note("import: 32 scenes; 16 places and 32 scenes; one cell too few for these"));
    let sheet = "32,1,2,32*0,64*1,0,1";
    rows.push(import(&all_to_zero(32, 1), "101*9", &format!("filled 101 | {sheet}")));
    rows.push(row(&format!("verdict {sheet} 31 0,31"), "accepted 0 1 0 1"));
    // In the automaton of q, place 0 entered has the number 2 x (16 - q) + 1, and 1 for q = 0.
    let loops = [1, 31, 29, 27, 25, 23, 21, 19, 17, 15, 13, 11, 9, 7, 5, 3];
    let loops = loops.map(|entered| format!(",1024*{entered}{}", ",0,1".repeat(16))).concat();
    let largest = all_to_zero(32, 16);
    rows.push(import(&largest, "17426*9", &format!("filled 17426 | 32,16,16*32,512*0{loops}")));
    rows.push(import(&largest, "17425*9", "refused 21 out 17426 | 17425*9"));
    rows
}

/// One scene; each place leads to the next, the last back to 0.
pub fn ring(places: usize, accepting: &[usize]) -> String {
    let lines = (0..places).map(|place| format!("s0,[{place}]->[{}]\n", (place + 1) % places));
    let accepting = accepting.iter().map(|place| format!("[{place}]\n"));
    format!("[0]\n{}", lines.chain(accepting).collect::<String>())
}

/// Its sheet. The number of a loop place is twice its distance from the first, and one more once an accepting place was entered.
fn sheet_of_ring(places: usize, accepting: &[usize]) -> Vec<u8> {
    let mut sheet = vec![1, places];
    sheet.extend(vec![2 * places; places]);
    sheet.extend((1..places).chain([0]));
    for first in 0..places {
        for distance in 1..=places {
            let entered = accepting.contains(&((first + distance) % places));
            let next = 2 * (distance % places);
            sheet.extend([next + entered as usize, next + 1]);
        }
        sheet.extend([0, 1].repeat(places));
    }
    sheet.into_iter().map(|cell| cell as u8).collect()
}

/// Every scene of every place leads to 0, which alone is accepting.
pub fn all_to_zero(scenes: usize, places: usize) -> String {
    let lines = |place| (0..scenes).map(move |scene| format!("s{scene},[{place}]->[0]\n"));
    format!("[0]\n{}[0]\n", (0..places).flat_map(lines).collect::<String>())
}
