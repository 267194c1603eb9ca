//! Holds the static library to the independent implementation: the papers' rows, then cases at random.
//!
//! random_cases [--cases N] [--seed N]   the rows, then N cases; prints how many there were of each kind and outcome
//! random_cases --case SEED              the one case of that seed, with its bytes
//! random_cases --self-test              damages what the calls leave, byte by byte; each damage must be found
//! random_cases --touch AT               reads a byte at AT from the start of a slice of 8 bytes between two inaccessible pages

use outside::case::Case;
use outside::check::{Checker, Damage, Outcome, WrongStandings};
use outside::crash;
use outside::export::Slice;
use outside::guarded::{Placement, Region};
use outside::random::Random;
use outside::rows::rows;
use outside::tally::Tally;
use std::collections::BTreeMap;
use std::process::{Command, ExitCode};
use std::time::Instant;

const CASES: usize = 625_000;
const SEED: u64 = 20_261_115;
/// All canaries of all regions are compared once in so many cases; those near a slice after each.
const SWEEP: usize = 1000;

fn main() -> ExitCode {
    let words: Vec<String> = std::env::args().skip(1).collect();
    let words: Vec<&str> = words.iter().map(String::as_str).collect();
    crash::watch();
    let result = match words.as_slice() {
        ["--self-test"] => self_test().and_then(|()| touch_all()),
        ["--touch", at] => at.parse().map_err(|_| format!("{at} is no number")).map(touch),
        ["--case", seed] => number(seed).and_then(one_case),
        [] => all_cases(SEED, CASES),
        ["--seed", seed] => number(seed).and_then(|seed| all_cases(seed, CASES)),
        ["--cases", cases] => number(cases).and_then(|cases| all_cases(SEED, cases as usize)),
        ["--cases", cases, "--seed", seed] => number(cases).and_then(|cases| all_cases(number(seed)?, cases as usize)),
        _ => Err("usage: random_cases [--cases N] [--seed N] | --case SEED | --self-test".to_string()),
    };
    match result {
        Ok(()) => ExitCode::SUCCESS,
        Err(fault) => {
            println!("FAILED: {fault}");
            ExitCode::FAILURE
        }
    }
}

fn number(word: &str) -> Result<u64, String> {
    word.parse().map_err(|_| format!("{word} is no number"))
}

fn all_cases(seed: u64, cases: usize) -> Result<(), String> {
    let began = Instant::now();
    let mut checker = Checker::default();
    let rows = rows();
    for row in &rows {
        checker.check(&row.case).map_err(|fault| format!("row {}: {fault}\n{}", row.name, describe(&row.case)))?;
    }
    let mut tally = Tally::default();
    let mut seeds = Random::new(seed);
    for index in 0..cases {
        let seed = seeds.draw();
        crash::now_running(seed);
        let case = Case::random(seed, &mut checker.search);
        let outcome = checker.check(&case);
        let outcome = outcome.map_err(|fault| format!("case {index}, seed {seed}: {fault}\n{}", describe(&case)))?;
        tally.add(&case, &outcome);
        if (index + 1) % SWEEP == 0 {
            checker.sweep().map_err(|fault| format!("case {index} or up to {SWEEP} before: {fault}"))?;
        }
    }
    checker.sweep()?;
    print!("{tally}");
    let faults = tally.faults();
    if !faults.is_empty() {
        return Err(faults.join("\n"));
    }
    let seconds = began.elapsed().as_secs_f64();
    println!("{} rows and {cases} cases of seed {seed} agree ({seconds:.1} s)", rows.len());
    Ok(())
}

fn one_case(seed: u64) -> Result<(), String> {
    let mut checker = Checker::default();
    crash::now_running(seed);
    let case = Case::random(seed, &mut checker.search);
    print!("{}", describe(&case));
    let outcome = checker.check(&case)?;
    println!("agrees: {outcome:?}");
    Ok(())
}

/// The kind of a case, its numbers and its slices, cell by cell; of a long slice the first cells.
fn describe(case: &Case) -> String {
    let mut text = format!("{}, {}, shared {}\n", case.export.name, case.kind, case.shared);
    for (name, number) in case.export.numbers.iter().zip(&case.numbers) {
        text += &format!("{name} {number}\n");
    }
    for ((name, slice), placement) in case.names().zip(&case.slices).zip(&case.placements) {
        let shown = match slice {
            Slice::Bytes(cells) => shown(cells),
            Slice::Seconds(cells) => shown(cells),
            Slice::Work(cells) => shown(cells),
        };
        text += &format!("{name} ({} cells, {placement:?}): {shown}\n", slice.len());
    }
    text
}

fn shown<T: ToString>(cells: &[T]) -> String {
    const MOST_SHOWN: usize = 2000;
    let shown: Vec<String> = cells.iter().take(MOST_SHOWN).map(T::to_string).collect();
    shown.join(" ") + if cells.len() > MOST_SHOWN { " .." } else { "" }
}

fn self_test() -> Result<(), String> {
    const CASES: usize = 1000;
    const LEAST: usize = 10;
    let mut checker = Checker::default();
    let mut seeds = Random::new(SEED);
    let mut found = 0;
    let mut standings: BTreeMap<(WrongStandings, &str), usize> = BTreeMap::new();
    for _ in 0..CASES {
        let seed = seeds.draw();
        let case = Case::random(seed, &mut checker.search);
        let outcome = checker.check(&case).map_err(|fault| format!("seed {seed}: {fault}"))?;
        for damage in damages(&case) {
            match checker.check_damaged(&case, damage) {
                Some(true) => {
                    found += 1;
                    if let Damage::Standings(wrong) = damage {
                        *standings.entry((wrong, named(&outcome))).or_default() += 1;
                    }
                }
                Some(false) => return Err(format!("seed {seed}: {damage:?} was not found")),
                None => {}
            }
        }
        checker.sweep()?;
    }
    println!("{CASES} cases, {found} damages, all found; of waits and ends {standings:?}");
    // Where there is no counterexample the four numbers are 0: exchanged, they are the same.
    let of = |wrong| if wrong == WrongStandings::Exchanged { &OUTCOMES[..1] } else { &OUTCOMES[..] };
    let due = WrongStandings::ALL.into_iter().flat_map(|wrong| of(wrong).iter().map(move |&outcome| (wrong, outcome)));
    let lacking: Vec<_> = due.filter(|key| standings.get(key).is_none_or(|&count| count < LEAST)).collect();
    if found > CASES && lacking.is_empty() {
        Ok(())
    } else {
        Err(format!("too few damages were tried: {lacking:?}"))
    }
}

/// What becomes of a comparison that fills its answer slice.
const OUTCOMES: [&str; 3] = ["missing", "contained", "refused"];

fn named(outcome: &Outcome) -> &'static str {
    match outcome {
        Outcome::Given(numbers) => OUTCOMES[1 - numbers[0]],
        _ => OUTCOMES[2],
    }
}

/// The returned number; waits and ends; each byte of a short slice, some of a long one; the canaries beside it.
fn damages(case: &Case) -> Vec<Damage> {
    let mut damages = vec![Damage::Returned];
    damages.extend(WrongStandings::ALL.map(Damage::Standings));
    for (index, slice) in case.slices.iter().enumerate() {
        let length = slice.len() as isize;
        let step = (length / 16).max(1) as usize;
        damages.extend((0..length).step_by(step).map(|at| Damage::Slice(index, at)));
        damages.extend([-100, -2, -1, length - 1, length, length + 1, length + 100].map(|at| Damage::Slice(index, at)));
    }
    damages
}

/// Lends a slice that touches the inaccessible page after it (or, for a negative number, before it) and reads a byte.
fn touch(at: isize) {
    let mut region = Region::new(1);
    region.lend(&[0_u8; 8], if at < 0 { Placement::Start } else { Placement::End });
    crash::now_running(at.unsigned_abs() as u64);
    println!("read {}", region.touch(at));
}

/// Touches bytes in and around a slice, each in a program of its own: one beyond the slice must break it off and be told.
fn touch_all() -> Result<(), String> {
    let program = std::env::current_exe().map_err(|fault| fault.to_string())?;
    for (at, accessible) in [(0, true), (7, true), (8, false), (9, false), (-1, false), (-64, false)] {
        let run =
            Command::new(&program).args(["--touch", &at.to_string()]).output().map_err(|fault| fault.to_string())?;
        let printed = String::from_utf8_lossy(&run.stdout).into_owned();
        let told = printed.starts_with("FAILED: crashed by signal ") && !run.status.success();
        if told == accessible {
            return Err(format!("touching byte {at}: {printed}"));
        }
    }
    println!("6 bytes touched; those beyond the slice broke the program off");
    Ok(())
}
