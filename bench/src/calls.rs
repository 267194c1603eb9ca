//! Emptiness, a product, the pass and a cart.

use crate::inputs::{grouped, sheet_around, sheet_of_permutations, MIB};
use crate::timing::Table;
use outside::boolean::intersection;
use outside::cart::{self, Answer, MOST_SHOWS};
use outside::emptiness::first_accepted;
use outside::generate::{cycles, table as states_table, Draft, Shape};
use outside::inclusion::{Inclusion, Search};
use outside::layout::{inclusion_numbers, put, CART_BYTES, EMPTINESS_BYTES, INTERSECTION_BYTES, PASS_ON_BYTES};
use outside::library;
use outside::mix::of_sizes;
use outside::pass::{pass_on, Held};
use outside::random::Random;
use outside::sheet::{Part, Sheet, MOST};
use outside::verdict::Judge;
use std::hint::black_box;

pub fn time(table: &mut Table) {
    time_emptiness(table);
    time_product(table);
    time_pass(table);
    time_cart(table, 32_767, 32_768);
    time_cart(table, 8, 8);
}

/// The largest sheet that is empty only because no marked place is entered; and one whose show found is among the longest.
fn time_emptiness(table: &mut Table) {
    let mut random = Random::new(13);
    let leading = states_table(&mut random, Shape::Permutation, MOST, MOST);
    let progress = (0..MOST).map(|_| {
        let mut next = states_table(&mut random, Shape::Permutation, MOST, MOST - 1);
        next.resize(MOST * MOST, 0);
        let marks = (0..MOST).map(|state| (state == MOST - 1) as u8).collect();
        (next, marks)
    });
    let sheet = Draft { letters: MOST, leading, progress: progress.collect() }.pack();
    time_search(table, "32 scenes, 32 places, empty, no ending in reach", &sheet);
    let sheet = cycles(1, MOST - 1, MOST, true, &mut random).pack();
    let (cells, mut room) = (MOST * MOST, [0; MOST * MOST]);
    let Ok(Inclusion::Missing { period, .. }) =
        first_accepted(&mut Search::default(), cells, &sheet, &mut [], &mut room)
    else {
        panic!("the sheet accepts a show");
    };
    time_search(table, &format!("1 scene, 31 places, found, loop {period}"), &sheet);
}

fn time_search(table: &mut Table, of: &str, sheet: &[u8]) {
    let read = Sheet::read(sheet, Part::First).expect("the sheet is in order");
    let cells = read.states + read.states * read.largest_size();
    let mut search = Search::default();
    type Lent = (Vec<u8>, Vec<u8>, Vec<u64>, [u8; EMPTINESS_BYTES]);
    let rust = |(prefix, period, work, answer): &mut Lent| {
        let found = first_accepted(&mut search, work.len(), black_box(sheet), prefix, period);
        put(answer, &found.map(inclusion_numbers));
    };
    let library = |(prefix, period, work, answer): &mut Lent| {
        library::emptiness(sheet.into(), prefix.into(), period.into(), work.into(), answer.as_mut_slice().into());
    };
    let lent = (vec![0; MOST], vec![0; cells], vec![0; cells], [0; EMPTINESS_BYTES]);
    table.row(&format!("emptiness, {} cells, {of}", grouped(cells)), lent, rust, library);
}

/// Two sheets whose product is as large as any.
fn time_product(table: &mut Table) {
    let mut random = Random::new(14);
    let first = of_sizes(&mut random, MOST, 8, 4).pack();
    let second = of_sizes(&mut random, MOST, 4, 8).pack();
    let length = intersection(&first, &second, &mut [0; 1 << 16]).expect("the product fits");
    let rust = |(out, answer): &mut (Vec<u8>, [u8; INTERSECTION_BYTES])| {
        put(answer, &intersection(black_box(&first), black_box(&second), out).map(|length| vec![length]));
    };
    let library = |(out, answer): &mut (Vec<u8>, [u8; INTERSECTION_BYTES])| {
        library::intersection((&first).into(), (&second).into(), out.into(), answer.as_mut_slice().into());
    };
    let name = format!("intersection, {MOST} scenes, 8 and 4 places, product of {} bytes", grouped(length));
    table.row(&name, (vec![0; length], [0; INTERSECTION_BYTES]), rust, library);
}

/// An opening in parts, as they come from a file; each part is a call that judges the sheet too.
fn time_pass(table: &mut Table) {
    const PART: usize = 1 << 16;
    for (letters, states) in [(32, 32), (2, 3)] {
        let mut random = Random::new(7);
        let sheet = sheet_of_permutations(&mut random, letters, states);
        let prefix = random.word(16 * MIB, letters);
        let rust = |answer: &mut [u8; PASS_ON_BYTES]| {
            let mut held = Held { failed: false, state: 0, position: 0 };
            for part in black_box(&prefix).chunks(PART) {
                let sheet = Sheet::read(black_box(&sheet), Part::First).expect("the sheet is in order");
                held = pass_on(&sheet, held, part);
            }
            put(answer, &Ok(vec![held.failed as usize, held.state, held.position]));
        };
        let library = |answer: &mut [u8; PASS_ON_BYTES]| {
            library::pass_start(answer.as_mut_slice().into());
            for part in prefix.chunks(PART) {
                let held = [1, 2, 3].map(|at| number(answer, at));
                library::pass_on((&sheet).into(), held[0], held[1], held[2], part.into(), answer.as_mut_slice().into());
            }
        };
        let name = format!("pass, opening of 16 MiB in parts of 64 KiB, {letters} scenes, {states} places");
        table.row(&name, [0; PASS_ON_BYTES], rust, library);
    }
}

/// As many shows as a cart has, with openings and loops of these lengths; all close at once and are accepted.
fn time_cart(table: &mut Table, before: usize, turn: usize) {
    let mut random = Random::new(17);
    let sheet = sheet_around(&mut random, MOST, MOST);
    let judge = Judge::new(&sheet).expect("the sheet is in order");
    let mut show = || loop {
        let (prefix, mut period) = (random.word(before, MOST), random.word(turn, MOST));
        // The leading automaton adds each letter to its state: the last one brings it back.
        let sum: usize = period[1..].iter().map(|&letter| letter as usize).sum();
        period[0] = ((MOST - sum % MOST) % MOST) as u8;
        let given = judge.verdict(&prefix, &period).expect("the show is in order");
        assert_eq!((given.before, given.turns), (0, 1));
        if given.accepted {
            return (prefix, period);
        }
    };
    let shows: Vec<_> = (0..MOST_SHOWS).map(|_| show()).collect();
    let cart = cart::pack(&shows);

    type Lent = (Vec<u8>, [u8; CART_BYTES]);
    let rust = |(out, answer): &mut Lent| {
        put(answer, &cart::load(black_box(&sheet), black_box(&cart), out).map(Answer::numbers));
    };
    let library = |(out, answer): &mut Lent| {
        library::cart((&sheet).into(), (&cart).into(), out.into(), answer.as_mut_slice().into());
    };
    let scenes = grouped(before + turn);
    let name = format!("cart, 64 shows of {scenes} scenes, 32 scenes, 32 places, i 0, j 1, all accepted");
    table.row(&name, (vec![0; cart.len()], [0; CART_BYTES]), rust, library);
}

fn number(answer: &[u8], at: usize) -> usize {
    u64::from_le_bytes(answer[8 * at..8 * at + 8].try_into().expect("8 bytes")) as usize
}
