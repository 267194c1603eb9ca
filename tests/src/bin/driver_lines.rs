//! Holds the driver to the independent implementation, line by line.
//!
//! driver_lines stored STDIN STDOUT                        a stored input and output agree with what is due
//! driver_lines random COUNT [SEED] [--driver PATH]        lines at random through one run of the driver (else FDFA_DRIVER is its path)
//! driver_lines changes [--driver PATH]                    every change of one byte of a sheet's text at both levels, a show's, an automaton's, and of a cart, long shows and running sheets, in the same way
//! driver_lines imports [--driver PATH]                    automata at random, imported, and verdicts on their sheets, in the same way
//! driver_lines passes [--driver PATH]                     prefixes at random, cut into parts in every way, and verdicts on them, in the same way
//! driver_lines long [--driver PATH]                       lines and slices of more than 64 Mi bytes and cells, in the same way
//! driver_lines rows [STDIN STDOUT]                        the rows to store, each with what is due; or both into two files
//! driver_lines line SEED                                  one line at random, with what is due
//! driver_lines answer [--wrong KIND]                      stands in for the driver, with a fault or without
//! driver_lines self-test                                  damages and wrong stand-ins are found; every outcome is met often

use outside::driver::calls::{answer, lines};
use outside::driver::changes::changed_lines;
use outside::driver::coverage::Coverage;
use outside::driver::cuts::cut_lines;
use outside::driver::damaged_answer::{damages, KINDS};
use outside::driver::imported::imported_lines;
use outside::driver::long_durations::long_durations;
use outside::driver::long_shows::long_lines;
use outside::driver::long_slices::long_slices;
use outside::driver::random_line::Sent;
use outside::driver::report::Report;
use outside::driver::session::{hold, random_lines};
use outside::driver::{rows, stand_in, wrong_carts, wrong_durations, wrong_level, wrong_pass};
use outside::inclusion::Search;
use std::collections::BTreeMap;
use std::process::{Command, ExitCode};
use std::time::Instant;
use std::{env, fs};

const SEED: u64 = 20_261_115;

fn main() -> ExitCode {
    let words: Vec<String> = env::args().skip(1).collect();
    let words: Vec<&str> = words.iter().map(String::as_str).collect();
    let result = match words.as_slice() {
        ["stored", input, output] => stored(input, output),
        ["random", rest @ ..] => random(rest),
        ["changes", rest @ ..] => {
            let lines = changed_lines().chain(long_lines()).chain(long_durations());
            fixed(rest, lines, "changes of one byte, long shows and running sheets")
        }
        ["imports", rest @ ..] => fixed(rest, imported_lines(SEED), "automata and verdicts on their sheets"),
        ["passes", rest @ ..] => fixed(rest, cut_lines(SEED), "prefixes cut in every way and verdicts on them"),
        ["long", rest @ ..] => fixed(rest, long_slices(), "long lines and slices"),
        ["rows"] => print_rows(),
        ["rows", input, output] => store_rows(input, output),
        ["line", seed] => number(seed).map(one_line),
        ["answer"] => stand_in::run(None),
        ["answer", "--wrong", kind] => stand_in::run(Some(kind)),
        ["self-test"] => self_test(),
        _ => {
            Err("usage: driver_lines stored STDIN STDOUT | random COUNT [SEED] [--driver PATH] | changes | imports | passes | long | rows | self-test"
                .into())
        }
    };
    match result {
        Ok(()) => ExitCode::SUCCESS,
        Err(fault) => {
            eprintln!("FAILED: {fault}");
            ExitCode::FAILURE
        }
    }
}

fn number(word: &str) -> Result<u64, String> {
    word.parse().map_err(|_| format!("{word} is no number"))
}

fn agreed(report: &Report) -> Result<(), String> {
    match report.mismatches {
        0 => Ok(()),
        count => Err(format!("{count} mismatches")),
    }
}

fn stored(input: &str, output: &str) -> Result<(), String> {
    let load = |path: &str| fs::read(path).map_err(|fault| format!("{path}: {fault}"));
    let (input, output) = (load(input)?, load(output)?);
    let mut search = Search::default();
    let mut report = Report::default();
    let mut printed = output.split_inclusive(|&byte| byte == b'\n');
    for line in lines(&input) {
        report.take("", line, &answer(line, &mut search), printed.next().unwrap_or_default());
    }
    report.take_rest(&printed.collect::<Vec<_>>().concat());
    println!("{report}");
    agreed(&report)
}

fn random(words: &[&str]) -> Result<(), String> {
    let (words, driver) = driver(words)?;
    let (count, seed) = match words {
        [count] => (number(count)?, SEED),
        [count, seed] => (number(count)?, number(seed)?),
        _ => return Err("random takes COUNT and at most a SEED".to_string()),
    };
    // With an odd seed the last line has no line feed.
    send(driver, random_lines(seed, count as usize), seed % 2 == 0, &format!("seed {seed}"))
}

/// Lines that are the same on every run.
fn fixed(words: &[&str], lines: impl Iterator<Item = Sent> + Send + 'static, of: &str) -> Result<(), String> {
    let (words, driver) = driver(words)?;
    if !words.is_empty() {
        return Err("these lines take no words but the driver's path".to_string());
    }
    send(driver, lines, true, of)
}

/// The words but the driver's path, and that path.
fn driver<'a>(words: &'a [&'a str]) -> Result<(&'a [&'a str], String), String> {
    match words {
        [words @ .., "--driver", path] => Ok((words, path.to_string())),
        _ => {
            let path = env::var("FDFA_DRIVER").map_err(|_| "no driver: give --driver PATH or set FDFA_DRIVER")?;
            Ok((words, path))
        }
    }
}

fn send(
    driver: String,
    lines: impl Iterator<Item = Sent> + Send + 'static,
    ended: bool,
    of: &str,
) -> Result<(), String> {
    let began = Instant::now();
    let report = hold(Command::new(driver), lines, ended)?;
    println!("{report} ({of}, {:.1} s)", began.elapsed().as_secs_f64());
    agreed(&report)
}

fn print_rows() -> Result<(), String> {
    let mut search = Search::default();
    for row in rows::rows() {
        println!("{}", row.line);
        if !row.line.starts_with('#') {
            println!("    {}", answer(row.line.as_bytes(), &mut search).escape_ascii());
        }
    }
    Ok(())
}

fn store_rows(input: &str, output: &str) -> Result<(), String> {
    let (lines, due) = rows::stored();
    let store = |path: &str, bytes: Vec<u8>| fs::write(path, bytes).map_err(|fault| format!("{path}: {fault}"));
    store(input, lines)?;
    store(output, due)
}

fn one_line(seed: u64) {
    let sent = Sent::random(seed, &mut Search::default());
    println!("{}\n{}", sent.line.escape_ascii(), sent.due.escape_ascii());
}

fn self_test() -> Result<(), String> {
    find_damages()?;
    find_wrong_drivers()?;
    cover()
}

/// Damages answers field by field: the comparison must find each.
fn find_damages() -> Result<(), String> {
    const LINES: usize = 4000;
    let mut found: BTreeMap<&str, usize> = BTreeMap::new();
    for Sent { name, line, due } in random_lines(SEED, LINES).filter(|sent| sent.due.len() < 5000) {
        let mut whole = due.clone();
        whole.push(b'\n');
        for (kind, mut damaged) in damages(&due) {
            damaged.push(b'\n');
            let mut report = Report::default();
            report.take("", &line, &due, &whole);
            report.take("", &line, &due, &damaged);
            if report.mismatches != 1 {
                return Err(format!("{name}: a damaged {kind} was not found, or one where there is none"));
            }
            *found.entry(kind).or_default() += 1;
        }
    }
    match KINDS.iter().find(|kind| found.get(*kind).is_none_or(|&count| count < 50)) {
        Some(kind) => Err(format!("hardly any {kind} was damaged")),
        None => {
            println!("damages found: {found:?}");
            Ok(())
        }
    }
}

/// This program stands in for the driver: without a fault it passes, with any fault it does not.
fn find_wrong_drivers() -> Result<(), String> {
    const LINES: usize = 3000;
    let program = env::current_exe().map_err(|fault| fault.to_string())?;
    let stand_in = |words: &[&str], ended| {
        let mut command = Command::new(&program);
        command.arg("answer").args(words);
        hold(command, random_lines(SEED, LINES), ended)
    };
    for ended in [true, false] {
        for words in [&[][..], &["--wrong", "nothing"], &["--wrong", "late"]] {
            let report = stand_in(words, ended)?;
            if (report.lines, report.mismatches) != (LINES, 0) {
                return Err(format!("{words:?}: {report}"));
            }
        }
    }
    for fault in KINDS.iter().chain(&stand_in::FAULTS).chain(&wrong_pass::KINDS) {
        let found = match stand_in(&["--wrong", fault], true) {
            Ok(report) if KINDS.contains(fault) => report.mismatches == 1,
            Ok(report) => report.mismatches > 0,
            Err(told) => *fault == "status" && told.contains("ended with"),
        };
        if !found {
            return Err(format!("a driver with the fault `{fault}` was not found, or not that alone"));
        }
        println!("a driver with the fault `{fault}` is found");
    }
    Ok(())
}

/// Every outcome that the table of calls lists is met often, and no other; every wrong reader, writer, running sheet and loader is found.
fn cover() -> Result<(), String> {
    const LINES: usize = 150_000;
    const LEAST: usize = 50;
    let began = Instant::now();
    let mut coverage = Coverage::default();
    type Wrong = fn(&str, &[u8]) -> Option<Vec<u8>>;
    let levels = wrong_level::kinds().map(|kind| (kind, wrong_level::wrong as Wrong));
    let durations = wrong_durations::kinds().map(|kind| (kind, wrong_durations::wrong as Wrong));
    let carts = wrong_carts::kinds().map(|kind| (kind, wrong_carts::wrong as Wrong));
    let mut not_found: Vec<(&str, Wrong)> = levels.chain(durations).chain(carts).collect();
    let (mut sent_bytes, mut due_bytes) = (0, 0);
    for sent in random_lines(SEED, LINES) {
        coverage.add(&sent.line, &sent.due);
        not_found.retain(|(kind, wrong)| wrong(kind, &sent.line).is_none_or(|printed| printed == sent.due));
        sent_bytes += sent.line.len();
        due_bytes += sent.due.len();
    }
    print!("{coverage}");
    println!(
        "{LINES} lines, {sent_bytes} bytes, answers of {due_bytes} bytes ({:.1} s)",
        began.elapsed().as_secs_f64()
    );
    let mut faults = coverage.faults(LEAST);
    faults.extend(not_found.iter().map(|(kind, _)| format!("a driver with the fault `{kind}` was not found")));
    if faults.is_empty() {
        return Ok(());
    }
    Err(faults.join("\n"))
}
