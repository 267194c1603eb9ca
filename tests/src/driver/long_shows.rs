//! Shows of as many scenes, and texts of as many bytes, as the programs take, and one more: the calls have no such bounds but their slices.

use crate::driver::calls::answer;
use crate::driver::line::print;
use crate::driver::random_line::Sent;
use crate::inclusion::Search;
use crate::sheet::MOST;
use crate::show_text::text_of;

const SCENES: usize = 4096;
const BYTES: usize = 65_536;

/// Lengths of opening and loop, each read into slices of 4,096 cells and written; then the texts of 65,536 and 65,537 bytes.
pub fn long_lines() -> impl Iterator<Item = Sent> {
    let lengths = [(SCENES, 1), (SCENES + 1, 1), (0, SCENES), (0, SCENES + 1), (SCENES + 1, SCENES + 1)];
    let shows = lengths.map(|(prefix, period)| (word(prefix), word(period)));
    let by_scenes = shows.into_iter().flat_map(|(prefix, period)| {
        let name = format!("{} and {} scenes", prefix.len(), period.len());
        let text = text_of(&prefix, &period).into_bytes();
        let read = format!("read-show {} {SCENES}*8 {SCENES}*9", print(&text));
        let write = format!("write-show {} {} {}*7", print(&prefix), print(&period), text.len());
        [(name.clone(), read), (name, write)]
    });
    let by_bytes = [BYTES, BYTES + 1].into_iter().map(|length| {
        let text = text_of(&[], &period_of(length)).into_bytes();
        assert_eq!(text.len(), length);
        (format!("{length} bytes"), format!("read-show {} - 10000*9", print(&text)))
    });
    let mut search = Search::default();
    by_scenes.chain(by_bytes).map(move |(name, line)| {
        let due = answer(line.as_bytes(), &mut search);
        Sent { name, line: line.into_bytes(), due }
    })
}

fn word(length: usize) -> Vec<u8> {
    (0..length).map(|at| (at % MOST) as u8).collect()
}

/// A loop whose text has so many bytes: 11 of the names, then lines of 7, and of 8 as many as are needed.
fn period_of(length: usize) -> Vec<u8> {
    let rest = length - 11;
    let long = rest % 7;
    [vec![0; rest / 7 - long], vec![10; long]].concat()
}

#[cfg(test)]
mod tests {
    use super::*;

    #[test]
    fn only_what_passes_the_slices_is_refused() {
        let begin = |sent: Sent| String::from_utf8(sent.due).unwrap().split(" | ").next().unwrap().to_string();
        let due: Vec<String> = long_lines().map(begin).collect();
        let refused = "refused 21";
        let of = |part: &str| format!("{refused} {part} 4097");
        assert_eq!([&due[0], &due[4]], ["filled 4096 1", "filled 0 4096"]);
        assert_eq!([&due[2], &due[6], &due[8]], [&of("opening"), &of("loop"), &of("opening")]);
        assert!([1, 3, 5, 7, 9].iter().all(|&at| due[at].starts_with("filled ")));
        assert!([10, 11].iter().all(|&at| due[at].starts_with("filled 0 93")));
    }
}
