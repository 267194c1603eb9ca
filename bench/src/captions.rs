//! The sheets of examples/captions with any number of cases: scene 2 i is an object, scene 2 i + 1 its caption.

use crate::inputs::{grouped, Comparison};
use outside::generate::Draft;
use outside::inclusion::{Inclusion, Search, CELLS};

/// Old and revised sheet of 6 cases, each in the other. With 7 cases or more they do not fit: 8 cases are the old sheet and one of its size.
pub fn comparisons() -> Vec<(String, Comparison)> {
    let mut comparisons = Vec::new();
    for (cases, other, name) in [(6, revised(6), "old and revised"), (8, lax(8), "old and a lax one")] {
        comparisons.push(comparison(cases, name, &old(cases), &other));
        comparisons.push(comparison(cases, name, &other, &old(cases)));
    }
    comparisons
}

fn comparison(cases: usize, name: &str, first: &Draft, second: &Draft) -> (String, Comparison) {
    let widest = |draft: &Draft| draft.progress[0].1.len();
    let pairs = first.states() * second.states();
    let cells = pairs + pairs * widest(first) * widest(second);
    assert!(cells <= CELLS);
    let cells = grouped(cells);
    let comparison = Comparison { first: first.pack(), second: second.pack() };
    let answer = Search::default().compare(&comparison.first, &comparison.second, &mut [0; CELLS], &mut [0; CELLS]);
    let outcome = match answer {
        Ok(Inclusion::Contained { reached }) => format!("contained, {reached} pairs reached"),
        Ok(Inclusion::Missing { reached, period, .. }) => format!("missing, loop {period}, {reached} pairs reached"),
        Err(refusal) => panic!("refused: {refusal:?}"),
    };
    (
        format!("comparison, {cells} cells, {} scenes, captions of {cases} cases, {name}, {outcome}", 2 * cases),
        comparison,
    )
}

/// The old sheet: a caption that does not follow its own object is wrong, and there is no way back.
fn old(cases: usize) -> Draft {
    draft(cases, cases + 2, |place, scene| plain(cases, place, scene).unwrap_or(cases + 1))
}

/// As the old sheet, but after the last object the first caption passes too.
fn lax(cases: usize) -> Draft {
    draft(cases, cases + 2, |place, scene| match plain(cases, place, scene) {
        None if (place, scene) == (cases, 1) => 0,
        next => next.unwrap_or(cases + 1),
    })
}

/// The revised sheet: it also follows a tour of all scenes in a row, and after one it forgets which object was just shown.
fn revised(cases: usize) -> Draft {
    // After two scenes of a tour, after all of one, after one and an object, after a wrong caption.
    let (two, toured, shown, wrong) = (cases + 1, 3 * cases - 1, 3 * cases, 3 * cases + 1);
    draft(cases, wrong + 1, |place, scene| {
        if (place, scene) == (1, 1) {
            two
        } else if place <= cases {
            plain(cases, place, scene).unwrap_or(wrong)
        } else if place < toured {
            let on_tour = scene == place - two + 2;
            if on_tour {
                place + 1
            } else {
                plain(cases, 0, scene).unwrap_or(wrong)
            }
        } else if place == wrong {
            wrong
        } else if scene % 2 == 0 {
            shown
        } else if place == shown {
            toured
        } else {
            wrong
        }
    })
}

/// The next place from place 0 (no object was just shown) or a case's place (its object was); none where a caption is wrong.
fn plain(cases: usize, place: usize, scene: usize) -> Option<usize> {
    let case = scene / 2 + 1;
    match scene % 2 {
        0 if place <= cases => Some(case),
        1 if place == case => Some(0),
        _ => None,
    }
}

/// The leading automaton remembers the last object. The progress automaton of place q is `next`, in which 0 and q stand for each other;
/// all its places are marked but the last.
fn draft(cases: usize, size: usize, next: impl Fn(usize, usize) -> usize) -> Draft {
    let letters = 2 * cases;
    let leading_row = (0..letters).map(|scene| if scene % 2 == 0 { scene / 2 + 1 } else { 0 } as u8);
    let leading = (0..=cases).flat_map(|_| leading_row.clone()).collect();
    let progress = (0..=cases).map(|start| {
        let swap = |place: usize| match place {
            0 => start,
            _ if place == start => 0,
            _ => place,
        };
        let row = |place: usize| (0..letters).map(move |scene| (place, scene));
        let table = (0..size).flat_map(row).map(|(place, scene)| swap(next(swap(place), scene)) as u8).collect();
        let mut marks = vec![1; size];
        marks[size - 1] = 0;
        (table, marks)
    });
    Draft { letters, leading, progress: progress.collect() }
}
