//! The driver of DRIVER.md: reads lines from standard input, makes the library call that each names, and prints one line for each.

use outside::by_lines::answer_lines;
use std::io::{self, BufWriter};
use std::process::ExitCode;

fn main() -> ExitCode {
    match answer_lines(io::stdin().lock(), &mut BufWriter::new(io::stdout().lock())) {
        Ok(()) => ExitCode::SUCCESS,
        Err(fault) => {
            eprintln!("driver: {fault}");
            ExitCode::FAILURE
        }
    }
}
