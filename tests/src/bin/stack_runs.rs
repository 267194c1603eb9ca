//! Every call of the library on a thread with as much stack as include/fdfa.h says: cases at random, the largest searches and the longest
//! carts, of which all that is due is compared. Prints how much of it was used at most, and how much a thread uses that does nothing.
//!
//! stack_runs [KIB]    with so many KiB for every call instead

use outside::case::Case;
use outside::check::Checker;
use outside::driver::line::slice;
use outside::driver::rows::{largest_rows, longest_carts};
use outside::export::{with_work, Export, Slice, EXPORTS};
use outside::random::Random;
use outside::stack::Stack;
use std::process::ExitCode;

const CASES: usize = 300;
const SEED: u64 = 20_261_117;
/// 1,049,601 cells of 8 bytes: one more than a search needs, and more than the longest cart has.
const ROOM: usize = 1_049_601 * 8;

/// The KiB of stack that a call takes at most.
fn most(name: &str) -> usize {
    match name {
        "compare_in" | "emptiness" => 1280,
        "compare" => 256,
        "sheet_read" => 128,
        "verdict" | "pass_on" | "cart" => 64,
        _ => 16,
    }
}

fn main() -> ExitCode {
    let words: Vec<String> = std::env::args().skip(1).collect();
    let size = match words.as_slice() {
        [] => Ok(None),
        [size] => size.parse().map(Some).map_err(|_| format!("{size} is no number")),
        _ => Err("give at most the KiB of stack".to_string()),
    };
    match size.and_then(all_calls) {
        Ok(()) => ExitCode::SUCCESS,
        Err(fault) => {
            println!("FAILED: {fault}");
            ExitCode::FAILURE
        }
    }
}

fn all_calls(size: Option<usize>) -> Result<(), String> {
    let mut checker = Checker::with_room(ROOM);
    let mut random = Random::new(SEED);
    for export in &EXPORTS {
        let kib = size.unwrap_or(most(export.name));
        // What stands here if a call breaks off.
        println!("{} in {kib} KiB of stack", export.name);
        let mut stack = Stack::new(kib << 10);
        let own = stack.run(&mut || {});
        let mut used = own;
        let random_cases = (0..CASES).map(|_| None);
        for largest in random_cases.chain(largest_cases(export).into_iter().map(Some)) {
            let case = largest.unwrap_or_else(|| Case::random_of(export, &mut random, &mut checker.search));
            let checked = checker.check_as(&case, |call| used = used.max(stack.run(call)));
            checked.map_err(|fault| format!("{}: {fault}", export.name))?;
        }
        println!("    used {used} bytes; by a thread that does nothing: {own}");
    }
    Ok(())
}

/// The largest searches of the stored lines, where the call is one of the two; or the longest carts.
fn largest_cases(export: &'static Export) -> Vec<Case> {
    if export.name == "cart" {
        let bytes = |word: &str| Slice::Bytes(slice(word.as_bytes()).expect("a row has its slices"));
        let of_line = |line: &str| Case::of_slices(export, line.split(' ').skip(1).map(bytes).collect());
        let rows = longest_carts().into_iter().filter(|row| row.line.starts_with("cart "));
        return rows.map(|row| of_line(&row.line)).collect();
    }
    let name = export.name.trim_end_matches("_in");
    let of_line = |line: String| {
        let mut words = line.split(' ').map(str::to_string);
        let is_it = words.next().is_some_and(|word| word == name) && export.slices.contains(&"work");
        is_it.then(|| Case::of_slices(export, with_work(words.collect()).slices))
    };
    let rows = largest_rows().into_iter().filter(|row| !row.stated.starts_with("refused"));
    rows.filter_map(|row| of_line(row.line)).collect()
}
