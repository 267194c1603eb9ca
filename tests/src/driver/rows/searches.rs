//! Stages of a sheet's check, searches, the order of lassos, verdicts, cursors.

use super::{note, plain, row, table, Row};
use crate::driver::line::print;
use crate::rows::cycle;

pub fn rows() -> Vec<Row> {
    let mut rows = sheets_and_verdicts();
    rows.extend(small_searches());
    rows.extend(large_searches());
    rows.extend(cursors());
    rows
}

fn sheets_and_verdicts() -> Vec<Row> {
    let mut rows = table(&[
        ("sheets: judged in stages, not by smallest byte", ""),
        ("check 0", "refused 1 first 1"),
        ("check 0,0", "refused 2 first 0"),
        ("check 1,33", "refused 3 first 1"),
        ("check 1,2,0", "refused 1 first 3"),
        ("check 1,2,33,0", "refused 4 first 2"),
        ("check 2,1,1,9,9,9,9", "refused 1 first 7"),
        ("check 2,1,1,9,9,9,9,9,9", "refused 1 first 9"),
        ("sheets: one scan for 5 and 6: a mark before a next place, a next place before a mark", ""),
        ("check 1,2,1,1,0,0,0,9,9,9", "refused 6 first 7"),
        ("check 1,2,1,1,2,9,9,9,9,9", "refused 5 first 4"),
        ("check 1,2,1,1,1,1,1,2,0,0", "refused 5 first 6"),
        ("verdict: the place is that after u and i turns, the end that of its automaton after j turns", ""),
        ("verdict E 0 0,0", "accepted 0 1 1 0"),
        ("verdict D - 0", "accepted 0 2 0 0"),
        ("verdict D 0 0,0,0", "accepted 0 2 1 0"),
        ("verdict A 0,1,0,1 1,0", "accepted 0 1 0 0"),
    ]);
    rows.push(note("verdict: 32 places one after the other, from the last on to the last, to place 20, to place 0"));
    for (back, stated) in [(31, "31 1 31 1"), (20, "20 12 20 0"), (0, "0 32 0 0")] {
        let verdict = if stated.ends_with(" 31 1") { "accepted" } else { "rejected" };
        rows.push(row(&format!("verdict {} - 0", print(&winding(back))), &format!("{verdict} {stated}")));
    }
    rows.push(row(&format!("verdict {} 40*0 0,0", print(&winding(20))), "rejected 0 6 28 0"));
    rows.push(row(&format!("verdict {} 3*0 33*0", print(&winding(0))), "rejected 0 32 3 0"));
    rows
}

/// One scene and 32 places: each leads to the next, the last to the given one. Each loop automaton takes turns between two places, of
/// which the second is marked.
fn winding(back: u8) -> Vec<u8> {
    let mut sheet = vec![1, 32];
    sheet.extend([2; 32]);
    sheet.extend(1..32);
    sheet.push(back);
    sheet.extend([1, 0, 0, 1].repeat(32));
    sheet
}

/// A place that no opening reaches has 32 loop places; the other one accepts all. One scene.
const UNREACHED: &str = "1,2,1,32,3*0,1,64*0";
/// From place 0 scene 0 stays and scene 1 goes to place 1 for good; there all is accepted, at place 0 the loops with two scenes 0 or more.
const LATER: &str = "2,2,3,1,0,4*1,0,2,1,2,2,2*0,1,2*0,1";
/// The loops 1 and 0 0 are accepted, no other.
const SHORTER_LOOP: &str = "2,1,4,2*0,1,2*3,5*2,3*0,1";
/// Scene 0 leads to place 2, scene 1 to place 1; both accept all.
const PLACES_TURNED: &str = "2,3,3*1,2,3*1,2*2,5*0,1,2*0,1";
/// The openings 0 0 and 1 lead to places that accept all.
const SHORTER_OPENING: &str = "2,4,4*1,1,2,3,1,2*2,2*3,8*0,1,2*0,1";

fn small_searches() -> Vec<Row> {
    let sheets = [
        ("UNREACHED", UNREACHED),
        ("LATER", LATER),
        ("SHORTER_LOOP", SHORTER_LOOP),
        ("PLACES_TURNED", PLACES_TURNED),
        ("SHORTER_OPENING", SHORTER_OPENING),
    ];
    let mut rows = table(&[
        ("searches: K is over all places, reached or not, in 20 and in 22", ""),
        ("union UNREACHED C 9*9", "refused 20 out 64 | 9*9"),
        ("intersection C UNREACHED 9*9", "refused 20 out 64 | 9*9"),
        ("compare UNREACHED C 7 8 129*9", "refused 22 work 130 | 7 8 129*9"),
        ("compare UNREACHED C 7 8 130*9", "missing 1 0 1 0 0 0 1 | 7 0 130*0"),
        ("emptiness UNREACHED 7 8 65*9", "refused 22 work 66 | 7 8 65*9"),
        ("emptiness UNREACHED 7 8 66*9", "found 1 0 1 0 0 0 0 | 7 0 66*0"),
        ("searches: 23 is for the first show, also where a later one would fit; R counts what lies behind it too", ""),
        ("emptiness LATER 7 8 8*9", "refused 23 loop 2 | 7 8 8*0"),
        ("emptiness LATER 7 8,8 8*9", "found 2 0 2 0 2 0 0 | 7 2*0 8*0"),
        ("compare LATER 2,2*1,5*0 7 8,8 8*9", "missing 2 0 2 0 2 0 0 | 7 2*0 8*0"),
        ("searches: the work cells come in with anything; those past N + N x K stay", ""),
        (
            "compare D E 2*7 2*8 18446744073709551615,2*18446744073709551614,1,2,3,4,5,6,7,8,9,10,11",
            "missing 3 2 2 0 0 2 0 | 2*0 2*0 12*0,10,11",
        ),
        ("emptiness E 7 2*8 1,0,18446744073709551615,3,4,5,6", "found 3 1 2 1 0 0 0 | 0 2*0 6*0,6"),
        ("compare D C 9 9 1,2,3,4,5,6,7,8", "contained 2 0 0 0 0 0 0 | 9 9 6*0,7,8"),
        ("searches: the shorter loop 1 before 0 0; pairs by their first opening; the shorter opening 1 before 0 0", ""),
        ("emptiness SHORTER_LOOP 7 8 5*9", "found 1 0 1 0 3 0 0 | 7 1 5*0"),
        ("emptiness PLACES_TURNED 7 8 6*9", "found 3 1 1 2 0 0 0 | 0 0 6*0"),
        ("emptiness SHORTER_OPENING 7 8 8*9", "found 4 1 1 2 0 0 0 | 1 0 8*0"),
    ]);
    for row in &mut rows {
        for (name, sheet) in sheets {
            row.line = row.line.replace(&format!(" {name} "), &format!(" {sheet} "));
        }
    }
    rows
}

fn large_searches() -> Vec<Row> {
    let [seven, fifteen] = [7, 15].map(|states| print(&cycle(states, 31, true)));
    let against = print(&cycle(1, 32, false));
    let full = plain(1, 32, 32, 0);
    let [wide, long] = [plain(1, 16, 31, 0), plain(1, 32, 1, 0)];
    let [turning0, turning1] = [turning(0), turning(1)].map(|sheet| print(&sheet));
    table(&[
        ("searches: at most 1,049,600 cells; the most that a line takes, and one fewer".to_string(), ""),
        (format!("compare {full} {full} - - -"), "refused 22 work 1049600 | - - -"),
        (format!("emptiness {full} - - 1056*5"), "empty 1 0 0 0 0 0 0 | - - 1056*0"),
        (format!("compare {wide} {long} 9 9 16384*9"), "contained 1 0 0 0 0 0 0 | 9 9 16384*0"),
        (format!("compare {wide} {long} 9 9 16383*9"), "refused 22 work 16384 | 9 9 16383*9"),
        ("searches: a loop N x K long, of 6,944, of 14,880".to_string(), ""),
        (format!("compare {seven} {against} - 6944*9 6951*9"), "missing 7 0 6944 0 0 0 0 | - 6944*0 6951*0"),
        (
            format!("compare {seven} {against} 4096*9 4096*9 8192*9"),
            "refused 23 loop 6944 | 4096*9 4096*9 6951*0,1241*9",
        ),
        (format!("compare {seven} {against} - 6944*9 6950*9"), "refused 22 work 6951 | - 6944*9 6950*9"),
        (format!("compare {fifteen} {against} - 14881*9 14895*9"), "missing 15 0 14880 0 0 0 0 | - 14880*0,9 14895*0"),
        ("searches: R reaches 1,024; an opening of 62".to_string(), ""),
        (
            format!("compare {turning0} {turning1} 62*9 32*9 2048*9"),
            "missing 1024 62 32 31 0 31 0 | 31*0,31*1 32*0 2048*0",
        ),
        (format!("compare {turning0} {turning1} 61*9 32*9 2048*9"), "refused 23 opening 62 | 61*9 32*9 2048*0"),
        (format!("compare {turning0} {turning1} 62*9 31*9 2048*9"), "refused 23 loop 32 | 62*9 31*9 2048*0"),
    ])
}

/// Two scenes and 32 places: the given scene goes round, the other stays. Scene 0's sheet accepts at the last place only, scene 1's
/// everywhere else.
fn turning(scene: usize) -> Vec<u8> {
    let mut sheet = vec![2, 32];
    sheet.extend([1; 32]);
    for place in 0..32 {
        let mut next = [place; 2];
        next[scene] = (place + 1) % 32;
        sheet.extend(next);
    }
    for place in 0..32 {
        sheet.extend([0, 0, ((place == 31) == (scene == 0)) as u8]);
    }
    sheet
}

fn cursors() -> Vec<Row> {
    table(&[
        ("cursor: starts, steps, and positions up to the largest", ""),
        ("start -", "cursor loop 0"),
        ("start 0", "cursor opening 0"),
        ("start 300000*255", "cursor opening 0"),
        ("step opening 0 5,6 7", "passed 5 opening 1"),
        ("step opening 1 5,6 7", "passed 6 loop 0"),
        ("step opening 255 300*5 7", "passed 5 opening 256"),
        ("step loop 65535 - 65536*5,6", "passed 5 loop 65536"),
        ("step loop 0 - 7", "passed 7 loop 0"),
        ("step loop 0 5 255", "passed 255 loop 0"),
        ("step opening 0 - 7", "refused 24 cursor 0 cursor opening 0"),
        (
            "step opening 18446744073709551615 5 7,8",
            "refused 24 cursor 18446744073709551615 cursor opening 18446744073709551615",
        ),
        (
            "step loop 18446744073709551615 5 7,8",
            "refused 24 cursor 18446744073709551615 cursor loop 18446744073709551615",
        ),
        ("step loop 4294967296 5 7,8", "refused 24 cursor 4294967296 cursor loop 4294967296"),
        ("cursor: the rest of a part; empty where a step is refused", ""),
        ("rest opening 0 5,6,7 8", "rest 5,6,7"),
        ("rest opening 1 5,6,6 8", "rest 2*6"),
        ("rest opening 2 5,6,6 8", "rest 6"),
        ("rest opening 3 5,6,6 8", "rest -"),
        ("rest loop 0 5 7,8,9", "rest 7,8,9"),
        ("rest loop 2 5 7,8,9", "rest 9"),
        ("rest loop 3 5 7,8,9", "rest -"),
        ("rest opening 0 5,6 -", "rest -"),
        ("rest opening 0 - 7", "rest -"),
        ("rest loop 0 5 -", "rest -"),
        ("rest loop 18446744073709551615 5 7", "rest -"),
        ("rest opening 4294967296 5 7", "rest -"),
    ])
}
