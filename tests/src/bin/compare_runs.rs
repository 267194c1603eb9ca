//! Holds the program `compare` to the independent implementation: runs it on pairs of sheets at random, and compares all that it prints.
//! The show that it prints is read back.
//!
//! compare_runs PROGRAM [RUNS]

use outside::inclusion::{Inclusion, Search};
use outside::mix::sheet_pair;
use outside::printed::{self, SCENES};
use outside::program_runs::{self, Run};
use outside::show_text::lasso_of;
use std::process::ExitCode;

/// Each must come up.
const KINDS: [&str; 4] = ["refused", "contained", "missing", "missing, all places above 0"];

fn main() -> ExitCode {
    let mut search = Search::default();
    program_runs::main(1, &KINDS, |random| {
        let (_, first, second) = sheet_pair(random);
        let due = printed::comparison(&mut search, &first, &second);
        read_back(&mut search, &first, &second, &due)?;
        let kind = kind(&due).to_string();
        Ok(Run::reading("compare", [("first.sheet", Some(first)), ("second.sheet", Some(second))], due, kind))
    })
}

/// The second block of what is printed for `missing` is the text of the lasso found.
fn read_back(search: &mut Search, first: &[u8], second: &[u8], printed: &str) -> Result<(), String> {
    let (mut prefix, mut period) = ([0; SCENES], [0; SCENES]);
    let found = search.compare(first, second, &mut prefix, &mut period);
    let Ok(Inclusion::Missing { prefix: prefix_length, period: period_length, .. }) = found else {
        return Ok(());
    };
    let from = printed.find("part scene\n").ok_or("there is no second block")?;
    let to = printed.find("waits ends\n").ok_or("there is no last block")?;
    let lasso = (prefix[..prefix_length].to_vec(), period[..period_length].to_vec());
    match lasso_of(printed[from..to].as_bytes()) {
        Ok(read) if read == lasso => Ok(()),
        other => Err(format!("the lasso {lasso:?} was read back as {other:?}")),
    }
}

/// What kind of answer a text is.
fn kind(printed: &str) -> &'static str {
    if printed.starts_with("refused") {
        return KINDS[0];
    }
    if printed.lines().any(|line| line.starts_with("contained")) {
        return KINDS[1];
    }
    let mut places = printed.lines().skip_while(|line| *line != "waits ends").skip(1).flat_map(|line| line.split(' '));
    if places.all(|place| place != "0") {
        KINDS[3]
    } else {
        KINDS[2]
    }
}
