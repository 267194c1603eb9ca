//! A stand-in for the driver, with a fault or without, so that the comparison itself can be tried.

use crate::driver::calls::{answer, lines};
use crate::driver::damaged_answer::damages;
use crate::driver::{wrong_level, wrong_pass};
use crate::inclusion::Search;
use std::io::{self, BufRead, BufWriter, Read, Write};
use std::process::exit;

/// Faults that are not in a field of one line: a line missing, printed twice or changed with the next, one more line at the end, no
/// last line feed, no output after some lines, every line again and again, and a program that fails at its end.
pub const FAULTS: [&str; 8] = ["missing", "double", "swapped", "more", "unended", "short", "babble", "status"];

/// Answers standard input. A fault of a field is put into one line in the middle, a wrong pass, reader or writer into each; `nothing` has
/// no fault, `late` neither, but prints only when all is read.
pub fn run(fault: Option<&str>) -> Result<(), String> {
    let told = |fault: io::Error| fault.to_string();
    let (mut input, mut output) = (io::stdin().lock(), BufWriter::new(io::stdout().lock()));
    let mut search = Search::default();
    let fault = fault.unwrap_or_default();
    if ["", "babble"].contains(&fault) {
        let times = if fault.is_empty() { 1 } else { 20 };
        let mut line = Vec::new();
        while input.read_until(b'\n', &mut line).map_err(told)? > 0 {
            let mut printed = answer(line.strip_suffix(b"\n").unwrap_or(&line), &mut search);
            printed.push(b'\n');
            output.write_all(&printed.repeat(times)).map_err(told)?;
            line.clear();
        }
        return output.flush().map_err(told);
    }
    let mut all = Vec::new();
    input.read_to_end(&mut all).map_err(told)?;
    let is_level = wrong_level::kinds().any(|kind| kind == fault);
    let answer = if is_level { wrong_level::answer } else { wrong_pass::answer };
    let mut printed: Vec<Vec<u8>> = lines(&all).map(|line| answer(fault, line, &mut search)).collect();
    let middle = printed.len() / 2;
    match fault {
        "nothing" | "late" | "status" | "unended" => {}
        kind if is_level || wrong_pass::KINDS.contains(&kind) => {}
        "missing" => drop(printed.remove(middle)),
        "double" => printed.insert(middle, printed[middle].clone()),
        "swapped" => {
            let other = (middle + 1..printed.len()).find(|&at| printed[at] != printed[middle]);
            printed.swap(middle, other.ok_or("all lines are alike")?);
        }
        "more" => printed.push(b"no call".to_vec()),
        "short" => printed.truncate(middle),
        kind => {
            let damaged =
                |line: &[u8]| damages(line).into_iter().find(|damage| damage.0 == kind).map(|damage| damage.1);
            let at = (middle..printed.len()).find(|&at| damaged(&printed[at]).is_some());
            let at = at.ok_or_else(|| format!("there is no {kind}"))?;
            printed[at] = damaged(&printed[at]).unwrap_or_default();
        }
    }
    let mut bytes = printed.join(&b'\n');
    if fault != "unended" {
        bytes.push(b'\n');
    }
    output.write_all(&bytes).and_then(|()| output.flush()).map_err(told)?;
    if fault == "status" {
        exit(1);
    }
    Ok(())
}
