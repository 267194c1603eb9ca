//! The static library against the independent Rust implementation: one process, the same inputs, turn about.
//!
//! bench [WORD..]   the rows whose names have the words as one phrase; all without words
//!
//! Prints a table for docs. Both sides are release builds for the common x86-64. Before the rounds each side is called once, so that
//! memory is mapped and what fits in the caches is there; all that they left is compared at that time.

mod calls;
mod captions;
mod heavy;
mod inputs;
mod texts;
mod timing;

use inputs::{Comparison, Lasso};
use outside::inclusion::Search;
use outside::layout::{inclusion_numbers, put, verdict_numbers, COMPARE_BYTES, VERDICT_BYTES};
use outside::library;
use outside::verdict::verdict;
use std::hint::black_box;
use std::process::ExitCode;
use timing::{Table, ROUNDS};

const ROOM: usize = 8192;

fn main() -> ExitCode {
    let words: Vec<String> = std::env::args().skip(1).collect();
    let mut table = Table { wanted: words.join(" "), printed: 0 };
    println!("| case | Rust ms | library ms | ratio | ratio of the fastest |");
    println!("|---|---|---|---|---|");
    for (name, lasso) in inputs::lassos() {
        time_verdict(&mut table, &name, &lasso);
    }
    for (name, comparison) in inputs::comparisons() {
        time_comparison(&mut table, &name, &comparison);
    }
    calls::time(&mut table);
    texts::time(&mut table);
    println!();
    if table.printed == 0 {
        println!("No row has the words `{}`.", table.wanted);
        return ExitCode::FAILURE;
    }
    println!(
        "Processor time, median of {ROUNDS} rounds, turn about. Buffers are warm: both sides were called once before."
    );
    ExitCode::SUCCESS
}

fn time_verdict(table: &mut Table, name: &str, lasso: &Lasso) {
    let Lasso { sheet, prefix, period } = lasso;
    let rust = |answer: &mut [u8; VERDICT_BYTES]| {
        put(answer, &verdict(black_box(sheet), black_box(prefix), black_box(period)).map(verdict_numbers));
    };
    let library = |answer: &mut [u8; VERDICT_BYTES]| {
        library::verdict(sheet.into(), prefix.into(), period.into(), answer.as_mut_slice().into());
    };
    table.row(name, [0; VERDICT_BYTES], rust, library);
}

fn time_comparison(table: &mut Table, name: &str, comparison: &Comparison) {
    let Comparison { first, second } = comparison;
    let mut search = Search::default();
    let rust = |(prefix, period, answer): &mut ([u8; ROOM], [u8; ROOM], [u8; COMPARE_BYTES])| {
        put(answer, &search.compare(black_box(first), black_box(second), prefix, period).map(inclusion_numbers));
    };
    let library = |(prefix, period, answer): &mut ([u8; ROOM], [u8; ROOM], [u8; COMPARE_BYTES])| {
        let (prefix, period, answer) = (prefix.as_mut_slice(), period.as_mut_slice(), answer.as_mut_slice());
        library::compare(first.into(), second.into(), prefix.into(), period.into(), answer.into());
    };
    table.row(name, ([0; ROOM], [0; ROOM], [0; COMPARE_BYTES]), rust, library);
}
