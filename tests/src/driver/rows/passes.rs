//! The opening judged and walked in one pass (F-4): openings cut into parts, unknown scenes about the powers of two, long parts, lines that
//! are no call, and verdicts on such openings. The refusals of the sheet are in `refusals`.

use super::{note, row, table, Row};
use crate::driver::cuts::parts;
use crate::driver::line::print;

/// Three scenes and seven places: scene a leads from place q to 2 x q + a, less 7 where that is 7 or more. The loop place is marked at the
/// places 1, 2 and 4, among which the loop 0 goes round, as it does among 3, 6 and 5.
const SEVEN: &str = "3,7,7*1,0,1,2*2,3,2*4,5,2*6,0,2*1,2,2*3,4,2*5,6,8*0,1,3*0,1,7*0,1,8*0";
/// An opening of it, and the places after none of its scenes, after one, and so on.
const OPENING: [u8; 6] = [1, 2, 1, 1, 0, 0];
const PLACES: [usize; 7] = [0, 1, 4, 2, 5, 3, 6];
/// Numbers that are no scene of it.
const UNKNOWN: [u8; 7] = [3, 64, 4, 255, 3, 32, 128];

pub fn rows() -> Vec<Row> {
    let mut rows = short();
    rows.extend(other_sheets());
    rows.extend(powers_of_two());
    rows.extend(long_parts());
    rows.extend(no_calls());
    rows.extend(verdicts());
    rows
}

fn pass(sheet: &str, opening: &[u8], cut: &[usize], stated: &str) -> Row {
    let parts: Vec<String> = parts(opening, cut).into_iter().map(print).collect();
    row(&format!("pass {sheet} {}", parts.join(" ")), stated)
}

/// The opening with one scene unknown and, where there is room, its last one too.
fn with_unknown(opening: &[u8], position: usize) -> Vec<u8> {
    let mut opening = opening.to_vec();
    let last = opening.len() - 1;
    opening[position] = UNKNOWN[position % 7];
    if position + 2 < last {
        opening[last] = 200;
    }
    opening
}

/// Openings of up to six scenes.
fn short() -> Vec<Row> {
    let mut rows = vec![note("F-4, the opening in one pass: up to six scenes, cut into two parts at every position")];
    for length in 0..=6 {
        for cut in 0..=length {
            rows.push(pass(SEVEN, &OPENING[..length], &[cut], &format!("reached {}", PLACES[length])));
        }
    }
    rows.push(note("pass: in one part; each scene alone, between empty parts; more empty parts"));
    for length in 0..=6 {
        let (opening, reached) = (&OPENING[..length], format!("reached {}", PLACES[length]));
        rows.push(pass(SEVEN, opening, &[], &reached));
        rows.push(pass(SEVEN, opening, &(0..=length).collect::<Vec<_>>(), &reached));
    }
    rows.push(pass(SEVEN, &OPENING, &[3; 7], "reached 6"));
    rows.push(row(&format!("pass {SEVEN} - - - - - - - -"), "reached 0"));
    rows.push(note("pass: the order of scenes and parts counts: 1 2 led to place 4"));
    rows.push(row(&format!("pass {SEVEN} 2,1"), "reached 5"));
    rows.push(row(&format!("pass {SEVEN} 2 1"), "reached 5"));
    rows.push(note("pass: each position unknown, cut before it and after it; of six scenes, cut at every position"));
    for length in 1..=6 {
        for position in 0..length {
            let opening = with_unknown(&OPENING[..length], position);
            let cuts = if length < 6 { position..=position + 1 } else { 0..=length };
            rows.extend(cuts.map(|cut| pass(SEVEN, &opening, &[cut], &format!("unknown {position}"))));
        }
    }
    rows.push(note("pass: each position unknown, each scene alone, between empty parts; every scene unknown"));
    for position in 0..6 {
        let (opening, unknown) = (with_unknown(&OPENING, position), format!("unknown {position}"));
        rows.push(pass(SEVEN, &opening, &[0, 1, 2, 3, 4, 5, 6], &unknown));
        rows.push(pass(SEVEN, &opening, &[0, position, position, position + 1, position + 1], &unknown));
    }
    rows.push(row(&format!("pass {SEVEN} 3 4 5 6 7 8 9 255"), "unknown 0"));
    rows.push(row(&format!("pass {SEVEN} - - - - - - - 3"), "unknown 0"));
    rows.push(row(&format!("pass {SEVEN} 0 - - - - - 1 3,0"), "unknown 2"));
    rows
}

/// The most places and scenes, and one place.
fn other_sheets() -> Vec<Row> {
    let mut rows =
        vec![note("pass: 32 scenes and places: scenes below 16 lead on from place to place, the others back to 0")];
    // How many scenes below 16 there are at the end.
    let opening = [0, 31, 15, 7, 1, 14];
    let most = chain();
    for (length, place) in [0, 1, 0, 1, 2, 3, 4].into_iter().enumerate() {
        rows.push(pass(&most, &opening[..length], &[length / 2, length], &format!("reached {place}")));
    }
    for (parts, stated) in [
        ("31*0", "reached 31"),
        ("32*0", "reached 0"),
        ("31*15 15 15", "reached 1"),
        ("16*0,16 15*0 16*0", "reached 31"),
        ("16*0 16,15*0 16", "reached 0"),
        ("0,31,32", "unknown 2"),
        ("0 31 32", "unknown 2"),
        ("33 32", "unknown 0"),
        ("31*31 31 63", "unknown 32"),
        ("31*31 64 160", "unknown 31"),
        ("96,31*31", "unknown 0"),
        ("255*31 31,128", "unknown 256"),
        ("255*31 31 255", "unknown 256"),
    ] {
        rows.push(row(&format!("pass {most} {parts}"), stated));
    }
    rows.push(note("pass: one place, of two scenes and of one; sheets of 01"));
    rows.extend(table(&[
        ("pass B -", "reached 0"),
        ("pass B 0,1,1 0", "reached 0"),
        ("pass B 0,1,1 0,2", "unknown 4"),
        ("pass B 2 2", "unknown 0"),
        ("pass A 0,1 1,255,0 2", "unknown 3"),
        ("pass C 3*0 1", "unknown 3"),
        ("pass C 300000*0", "reached 0"),
        ("pass D 0 0 0", "reached 1"),
        ("pass D 2*0 1", "unknown 2"),
        ("pass E 0 0", "reached 2"),
        ("pass E 0 0 0", "reached 1"),
        ("pass E 3*0 - 0", "reached 2"),
        ("pass HALL 1 - 0", "reached 2"),
        ("pass HALL 0 - 1", "reached 1"),
    ]));
    rows
}

/// Its scenes from 16 on lead to place 0.
fn chain() -> String {
    let mut sheet: Vec<u8> = vec![32, 32];
    sheet.extend([1; 32]);
    for place in 0..32 {
        sheet.extend([(place + 1) % 32; 16]);
        sheet.extend([0; 16]);
    }
    sheet.extend([0; 32 * 33]);
    print(&sheet)
}

/// Powers of two up to the largest that a part can be as long as, each with itself and the numbers beside it.
fn about_powers(step: usize) -> impl Iterator<Item = (usize, usize)> {
    let powers = (0..=18).step_by(step).map(|exponent| 1 << exponent);
    powers.flat_map(|power| [power - 1, power, power + 1].map(|number| (power, number)))
}

/// All these numbers, each once.
fn numbers() -> Vec<usize> {
    let mut numbers: Vec<usize> = about_powers(1).map(|(_, number)| number).collect();
    numbers.sort();
    numbers.dedup();
    numbers
}

fn powers_of_two() -> Vec<Row> {
    let unknown_at = |position: usize, cut: &[usize]| {
        pass(SEVEN, &with_unknown(&vec![1; position + 6], position), cut, &format!("unknown {position}"))
    };
    let mut rows = vec![note("pass: an unknown scene at 0, at every power of two, and beside it, in one part")];
    rows.extend(numbers().into_iter().map(|position| unknown_at(position, &[])));
    rows.push(note(
        "pass: a part as long as a power of two; the unknown scene is its last, the next, the one after that",
    ));
    rows.extend(about_powers(2).map(|(power, position)| unknown_at(position, &[power])));
    rows.push(note("pass: all scenes known; two parts as long as every power of two"));
    for length in (1..=18).map(|exponent| 1 << exponent) {
        rows.push(pass(SEVEN, &known(length), &[length / 2], &format!("reached {}", place_after(length))));
    }
    rows.push(pass(SEVEN, &known(1 + (1 << 18)), &[], "reached 5"));
    rows
}

/// Scene 2, then scene 1 again and again.
fn known(length: usize) -> Vec<u8> {
    let mut opening = vec![1; length];
    opening[..length.min(1)].fill(2);
    opening
}

/// Scene 2 leads to place 2; from there scene 1 leads to 5, 4 and back to 2.
fn place_after(length: usize) -> usize {
    if length == 0 {
        0
    } else {
        [4, 2, 5][length % 3]
    }
}

/// Eight parts of 300,000 scenes; and with an unknown scene.
fn long_parts() -> Vec<Row> {
    let parts = |first: &str, seventh: &str, last: &str| {
        format!("pass {SEVEN} {first} 300000*1 300000*1 300000*1 300000*1 300000*1 {seventh} {last}")
    };
    let (whole, one_fewer) = ("300000*1", "299999*1");
    let unknown = |position: usize| format!("unknown {position}");
    let mut rows =
        vec![note("pass: eight parts of 300,000 scenes; an unknown scene in the first, the seventh, the last")];
    // 300,000 is a multiple of 3, and scene 1 leads from 0 to 1, 3 and back.
    rows.push(row(&parts(whole, whole, whole), "reached 0"));
    rows.push(row(&parts("2,299999*1", whole, whole), "reached 4"));
    rows.push(row(&parts(whole, whole, "299999*1,2"), "reached 1"));
    rows.push(row(&parts(whole, whole, one_fewer), "reached 3"));
    rows.push(row(&parts(one_fewer, "2*2,299998*1", whole), "reached 2"));
    rows.push(row(&parts(whole, whole, "299999*1,3"), &unknown(2_399_999)));
    rows.push(row(&parts(whole, whole, "255,299998*1,3"), &unknown(2_100_000)));
    rows.push(row(&parts(whole, "299999*1,3", "300000*3"), &unknown(2_099_999)));
    rows.push(row(&parts("299999*1,3", "300000*3", whole), &unknown(299_999)));
    rows.push(row(&parts("3,299999*1", whole, whole), &unknown(0)));
    rows.push(row(&parts("-", whole, "1,3"), &unknown(1_800_001)));
    rows
}

fn no_calls() -> Vec<Row> {
    const LINES: [&str; 22] = [
        "pass",
        "pass ",
        "pass A",
        "pass A ",
        "pass  A 0",
        "pass A  0",
        "pass A 0  1",
        "pass A 0 1 ",
        "pass A 0\r",
        "pass A 0 256",
        "pass A 9 256",
        "pass A 0 0*1",
        "pass A 0 -,1",
        "pass A 0,",
        "pass - 0 01",
        "pass 256 0",
        "pass A 0 1 0 1 0 1 0 1 0",
        "pass A - - - - - - - - -",
        "pass A 9 - - - - - - - - -",
        "pass - - - - - - - - - -",
        "Pass A 0",
        "passes A 0",
    ];
    let mut rows = vec![note("pass: lines that are no call: no part, nine parts or more, words of no form")];
    rows.extend(table(&LINES.map(|line| (line, "no call"))));
    rows
}

/// The same openings in a verdict: the leading place is the one after the opening, since i is 0 for every show of this sheet.
fn verdicts() -> Vec<Row> {
    let verdict =
        |opening: &[u8], turn: &str, stated: &str| row(&format!("verdict {SEVEN} {} {turn}", print(opening)), stated);
    let mut rows = vec![note("verdict: openings as long as every power of two, and beside it; all scenes known")];
    for length in numbers() {
        let stated = match place_after(length) {
            0 => "rejected 0 1 0 0",
            2 => "accepted 0 3 2 0",
            4 => "accepted 0 3 4 0",
            _ => "rejected 0 3 5 0",
        };
        rows.push(verdict(&known(length), "0", stated));
    }
    rows.push(note("verdict: the last scene unknown; the loop is known, empty, or has an unknown scene too"));
    let turns = ["0", "-", "3", "2*0,255"];
    for (at, length) in numbers().into_iter().skip(1).enumerate() {
        let mut opening = known(length);
        opening[length - 1] = UNKNOWN[at % 7];
        rows.push(verdict(&opening, turns[at % 4], &format!("refused 9 opening {}", length - 1)));
    }
    rows.push(note("verdict: a scene about the middle unknown, and the last one too; the first scene"));
    for exponent in 1..=17 {
        let (middle, length) = (1 + (1 << exponent), 1 + (2 << exponent));
        let opening = with_unknown(&known(length), middle);
        rows.push(verdict(&opening, turns[exponent % 4], &format!("refused 9 opening {middle}")));
    }
    for exponent in [1, 3, 8, 12, 16, 18] {
        let opening = with_unknown(&known(1 << exponent), 0);
        rows.push(verdict(&opening, turns[exponent % 4], "refused 9 opening 0"));
    }
    rows
}
