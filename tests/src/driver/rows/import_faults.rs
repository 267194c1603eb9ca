//! Texts of automata that are refused (F-3): texts that end early, sizes that are too large, no room, and lines that are no call. Faults
//! within a text are in `import_edits`.

use super::import_edits::FIVE_PLACES;
use super::imports::{all_to_zero, import, refused, ring};
use super::{note, table, Row};

pub fn rows() -> Vec<Row> {
    let mut rows = ends();
    rows.extend(scenes());
    rows.extend(places());
    rows.extend(no_room());
    rows.extend(no_calls());
    rows
}

/// Texts that end early, or without an accepting line.
fn ends() -> Vec<Row> {
    let mut rows =
        vec![note("import: no accepting line is 13 at the text's length, after one line of place 0 or a whole place")];
    for length in [16, 28, 52, 76, 100, 124] {
        rows.push(refused(&FIVE_PLACES[..length], &format!("13 first {length}")));
    }
    rows.push(note("import: the end where a place still lacks scenes, and within a line, is 11"));
    for length in [0, 1, 2, 3, 4, 40, 64, 112, 5, 6, 8, 9, 12, 13, 14, 15, 17, 27, 51, 122, 123, 125, 126, 127, 131] {
        rows.push(refused(&FIVE_PLACES[..length], &format!("11 first {length}")));
    }
    rows.push(refused("[0]\n[0]\n", "11 first 4"));
    rows.push(note("import: a last number that is not due or of bad form"));
    for (end, refusal) in [
        ("s1", "12 first 5"),
        ("s00", "11 first 5"),
        ("s0,[1", "12 first 8"),
        ("s0,[1234", "11 first 8"),
        ("s0,[0]->[999", "11 first 16"),
        ("s0,[0]->[1000", "11 first 13"),
        ("s0,[0]->[0]\n[999", "11 first 20"),
        ("s0,[0]->[0]\n[0]\n[0", "12 first 21"),
        ("s0,[0]->[0]\n[00", "11 first 17"),
    ] {
        rows.push(refused(&format!("[0]\n{end}"), refusal));
    }
    rows.push(note("import: 13 goes before 5, and after what stands at a smaller place"));
    rows.push(refused("[0]\ns0,[0]->[1]\n", "13 first 16"));
    rows.push(refused("[0]\ns0,[0]->[999]\n", "13 first 18"));
    rows.push(refused("[0]\ns0,[0]->[999]\ns0,[1]->[2]\n", "13 first 30"));
    rows.push(refused("[0]\ns0,[0]->[999]\ns0,[2]->[2]\n", "12 first 22"));
    rows.push(refused("[0]\ns0,[0]->[0]\n\n", "11 first 16"));
    rows.push(refused("[0]\ns0,[0]->[0]\ns", "11 first 17"));
    rows
}

/// Lines after a text that is in order, and the refusal: its place counts from where they begin.
fn after(text: &str, lines: &str, refusal: &str, offset: usize) -> Row {
    refused(&format!("{text}{lines}"), &format!("{refusal} first {}", text.len() + offset))
}

/// What may follow 31 and 32 lines of place 0, and the lines of place 1.
fn scenes() -> Vec<Row> {
    let lines = |count: usize, places: usize| {
        let text = all_to_zero(count, places);
        text[..text.len() - 4].to_string()
    };
    let mut rows =
        vec![note("import: 33 scenes; after 32 lines of place 0 scene 32 is 2, 33 is 12, and 0 begins place 1")];
    rows.push(refused(&all_to_zero(33, 1), "2 first 411"));
    rows.push(refused(&all_to_zero(33, 2), "2 first 411"));
    let [some, most, two_places] = [lines(31, 1), lines(32, 1), lines(32, 2)];
    for (line, refusal, offset) in [
        ("s32,[0]->[0]\n[0]\n", "2", 1),
        ("s32,[1]->[0]\n[0]\n", "2", 1),
        ("s32", "2", 1),
        ("s32x", "2", 1),
        ("s032,[0]->[0]\n[0]\n", "11", 1),
        ("s33,[0]->[0]\n[0]\n", "12", 1),
        ("s31,[0]->[0]\n[0]\n", "12", 1),
        ("s1,[1]->[0]\n[0]\n", "12", 1),
        ("s288,[0]->[0]\n[0]\n", "12", 1),
        ("s320,[0]->[0]\n[0]\n", "12", 1),
        ("s0,[0]->[0]\n[0]\n", "12", 4),
        ("s0,[1]->[0]\n[0]\n", "11", 12),
        ("s0,[1]->[0]\ns32,[1]->[0]\n", "12", 13),
        ("[0]\ns32,[0]->[0]\n", "11", 4),
        ("", "13", 0),
    ] {
        rows.push(after(&most, line, refusal, offset));
    }
    rows.push(note("import: scene 32 is 12 after 31 lines, and after a whole place of 32 scenes"));
    rows.push(after(&some, "s32,[0]->[0]\n[0]\n", "12", 1));
    rows.push(after(&two_places, "s32,[1]->[0]\n[0]\n", "12", 1));
    rows.push(after(&two_places, "s32,[2]->[0]\n[0]\n", "12", 1));
    rows
}

/// What may follow places 14 and 15.
fn places() -> Vec<Row> {
    let [some, most] = [15, 16].map(|places| ring(places, &[]));
    let mut rows = vec![note("import: 17 places; source 16 is 3 where it is due")];
    rows.push(refused(&ring(17, &[16]), "3 first 213"));
    for (line, refusal, offset) in [
        ("s0,[16]->[0]\n[0]\n", "3", 4),
        ("s0,[16", "3", 4),
        ("s0,[16x", "3", 4),
        ("s0,[016]->[0]\n[0]\n", "11", 4),
        ("s0,[17]->[0]\n[0]\n", "12", 4),
        ("s0,[15]->[0]\n[0]\n", "12", 4),
        ("s0,[160]->[0]\n[0]\n", "12", 4),
        ("s0,[272]->[0]\n[0]\n", "12", 4),
        ("s1,[16]->[0]\n[0]\n", "12", 1),
        ("s1,[15]->[0]\n[0]\n", "12", 1),
        ("[0]\ns0,[16]->[0]\n", "11", 4),
        ("", "13", 0),
    ] {
        rows.push(after(&most, line, refusal, offset));
    }
    rows.push(note("import: and nowhere else; with two scenes; with all 32"));
    rows.push(after(&some, "s0,[16]->[0]\n[0]\n", "12", 4));
    let two_scenes = all_to_zero(2, 16);
    let lacking = two_scenes.strip_suffix("s1,[15]->[0]\n[0]\n").expect("it ends so");
    rows.push(after(lacking, "s1,[16]->[0]\n[0]\n", "12", 4));
    rows.push(after(lacking, "s0,[16]->[0]\n[0]\n", "12", 1));
    for (scenes, place) in [(2, 404), (32, 6696)] {
        rows.push(refused(&all_to_zero(scenes, 17), &format!("3 first {place}")));
    }
    rows.push(note(
        "import: 3 goes before a 5 at a smaller place; with 16 places, 16 is 5 as a target and as an accepting place",
    ));
    rows.push(refused(&ring(17, &[16]).replacen("->[1]", "->[99]", 1), "3 first 214"));
    rows.push(refused(&ring(16, &[15]).replacen("[15]->[0]", "[15]->[16]", 1), "5 first 205"));
    rows.push(refused(&ring(16, &[0, 15, 16]), "5 first 218"));
    rows.push(note("import: a thousand accepting places rise, and all are read before 5 is given"));
    let all: Vec<usize> = (0..1000).collect();
    rows.push(refused(&ring(16, &all), "5 first 279"));
    rows.push(refused(&(ring(16, &all) + "[0]\n"), "12 first 6099"));
    rows
}

/// Each fault of the text goes before 21.
fn no_room() -> Vec<Row> {
    let mut rows = vec![note("import: 21 only where all of the text is in order")];
    for (text, refusal) in [
        ("", "11 first 0"),
        (&FIVE_PLACES[..131], "11 first 131"),
        (&FIVE_PLACES[..124], "13 first 124"),
        (&FIVE_PLACES.replacen("[0]\n[3]", "[0]\n[0]", 1), "12 first 129"),
        (&FIVE_PLACES.replacen("[0]\n[3]", "[0]\n[5]", 1), "5 first 129"),
        (&FIVE_PLACES.replacen("->[1]", "->[5]", 1), "5 first 13"),
        (&all_to_zero(33, 1), "2 first 411"),
        (&ring(17, &[16]), "3 first 213"),
    ] {
        rows.push(import(text, "-", &format!("refused {refusal} | -")));
    }
    rows.push(import(&FIVE_PLACES.replacen("->[1]", "->[5]", 1), "166*9", "refused 5 first 13 | 166*9"));
    rows.push(import(&FIVE_PLACES[..124], "166*9", "refused 13 first 124 | 166*9"));
    rows
}

fn no_calls() -> Vec<Row> {
    const LINES: [&str; 9] = [
        "import",
        "import -",
        "import - - -",
        "import 256 -",
        "import - 256",
        "import  - -",
        "imports - -",
        "Import - -",
        "import-text - -",
    ];
    let mut rows = vec![note("import: lines that are no call")];
    rows.extend(table(&LINES.map(|line| (line, "no call"))));
    rows
}
