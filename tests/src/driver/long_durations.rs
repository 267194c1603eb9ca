//! Running sheets of parts that are as long as they may be, 65,536 scenes, and of one scene more. What is due is made here, by no writer.

use crate::driver::line::print;
use crate::driver::random_line::Sent;

const SCENES: usize = 65_536;

/// The scenes of a part in a line, and what is printed for them.
struct Part {
    scenes: String,
    lines: String,
    total: usize,
}

pub fn long_durations() -> impl Iterator<Item = Sent> {
    equal_scenes().into_iter().chain([other_scenes()]).chain(too_long())
}

fn sent(name: &str, line: String, due: String) -> Sent {
    Sent { name: format!("running sheet, {name}"), line: line.into_bytes(), due: due.into_bytes() }
}

/// So many of scene 0, of 999 seconds each; 65,536 of them last 65,470,464 seconds.
fn zeros(part: &str, count: usize) -> Part {
    Part { scenes: format!("{count}*0"), lines: format!("{part} 0 999\n").repeat(count), total: 999 * count }
}

fn text(opening: &Part, turn: &Part) -> String {
    let (before, after) = (&opening.lines, &turn.lines);
    format!("part scene seconds\n{before}{after}opening loop\n{} {}\n", opening.total, turn.total)
}

/// Both parts as long as they may be, then either alone; with just enough room, three cells more, and one cell too few.
fn equal_scenes() -> Vec<Sent> {
    let mut lines = Vec::new();
    for [before, turn] in [[SCENES, SCENES], [SCENES, 1], [1, SCENES]] {
        let (opening, turn) = (zeros("opening", before), zeros("loop", turn));
        let text = text(&opening, &turn);
        let (length, printed) = (text.len(), print(text.as_bytes()));
        for (room, due) in [
            (length, format!("filled {length} | {printed}")),
            (length + 3, format!("filled {length} | {printed},3*7")),
            (length - 1, format!("refused 21 out {length} | {}*7", length - 1)),
        ] {
            let line = format!("durations {} {} 999 {room}*7", opening.scenes, turn.scenes);
            lines.push(sent(&format!("{} and {}, {room} cells", opening.scenes, turn.scenes), line, due));
        }
    }
    lines
}

/// Every byte is a scene, 256 times over; scene a lasts 3 a + 1 seconds. Once through all is 3 x 255 x 128 + 256 = 98,176 seconds.
fn other_scenes() -> Sent {
    let scenes: Vec<u8> = (0..SCENES).map(|at| at as u8).collect();
    let cells: Vec<u16> = (0..256).map(|scene| 3 * scene + 1).collect();
    let once: String = (0..256).map(|scene| format!("opening {scene} {}\n", 3 * scene + 1)).collect();
    let opening = Part { scenes: print(&scenes), lines: once.repeat(256), total: 256 * 98_176 };
    let turn = Part { scenes: "255".to_string(), lines: "loop 255 766\n".to_string(), total: 766 };
    let text = text(&opening, &turn);
    let line = format!("durations {} 255 {} {}*7", opening.scenes, print(&cells), text.len());
    sent("every scene", line, format!("filled {} | {}", text.len(), print(text.as_bytes())))
}

/// With room for any text.
fn too_long() -> Vec<Sent> {
    const ROOM: usize = 3_000_000;
    let lengths = [(SCENES + 1, 1, "opening"), (1, SCENES + 1, "loop"), (SCENES, SCENES + 1, "loop")];
    let more = [(SCENES + 1, SCENES + 1, "opening"), (1 << 20, 1, "opening"), (1, 1 << 20, "loop")];
    let sent = |(before, turn, part): (usize, usize, &str)| {
        let line = format!("durations {before}*0 {turn}*0 999 {ROOM}*7");
        sent(&format!("{before} and {turn}"), line, format!("refused 26 {part} {SCENES} | {ROOM}*7"))
    };
    lengths.into_iter().chain(more).map(sent).collect()
}

#[cfg(test)]
mod tests {
    use super::*;
    use crate::driver::calls::answer;
    use crate::inclusion::Search;

    #[test]
    fn the_independent_implementation_prints_what_is_due() {
        let mut search = Search::default();
        for Sent { name, line, due } in long_durations() {
            assert!(answer(&line, &mut search) == due, "{name}");
        }
    }
}
