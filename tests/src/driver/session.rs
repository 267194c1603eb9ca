//! One run of a driver: one thread sends lines, one takes what is printed, and both are compared as they come.

use crate::driver::random_line::Sent;
use crate::driver::report::Report;
use crate::inclusion::Search;
use crate::random::Random;
use std::io::{BufRead, BufReader, BufWriter, Read, Write};
use std::process::{ChildStdin, Command, Stdio};
use std::sync::mpsc::{channel, Receiver, Sender};
use std::thread;

/// So many lines of a seed.
pub fn random_lines(seed: u64, count: usize) -> impl Iterator<Item = Sent> {
    let mut seeds = Random::new(seed);
    let mut search = Search::default();
    (0..count).map(move |_| Sent::random(seeds.draw(), &mut search))
}

/// Sends lines to a program and compares what it prints. `ended` says whether the last line ends in a line feed too.
pub fn hold(
    mut program: Command,
    lines: impl Iterator<Item = Sent> + Send + 'static,
    ended: bool,
) -> Result<Report, String> {
    let name = program.get_program().to_string_lossy().into_owned();
    let child = program.stdin(Stdio::piped()).stdout(Stdio::piped()).spawn();
    let mut child = child.map_err(|fault| format!("{name} cannot be run: {fault}"))?;
    let (input, output) = (child.stdin.take().expect("it is piped"), child.stdout.take().expect("it is piped"));
    // The channels take any number of lines, so neither thread waits for the comparison, and the program waits for none of us.
    let ((sender, sent), (taker, printed)) = (channel(), channel());
    let sending = thread::spawn(move || send(lines, input, sender, ended));
    let taking = thread::spawn(move || take(output, taker));
    let report = compare(sent, printed);
    let status = child.wait().map_err(|fault| fault.to_string())?;
    if sending.join().is_err() || taking.join().is_err() {
        return Err("a thread broke off".to_string());
    }
    if !status.success() {
        return Err(format!("{report}\n{name} ended with {status}"));
    }
    Ok(report)
}

/// Writes the lines; stops where the program reads no more.
fn send(lines: impl Iterator<Item = Sent>, input: ChildStdin, sender: Sender<Sent>, ended: bool) {
    let mut input = BufWriter::new(input);
    let mut lines = lines.peekable();
    while let Some(sent) = lines.next() {
        // An empty line without its line feed would be no line.
        let feed: &[u8] = if ended || lines.peek().is_some() || sent.line.is_empty() { b"\n" } else { b"" };
        let written = input.write_all(&sent.line).and_then(|()| input.write_all(feed));
        if sender.send(sent).is_err() || written.is_err() {
            return;
        }
    }
}

/// Takes what is printed, line by line, with the line feeds.
fn take(output: impl Read, taker: Sender<Vec<u8>>) {
    let mut output = BufReader::new(output);
    let mut line = Vec::new();
    while output.read_until(b'\n', &mut line).is_ok_and(|length| length > 0) {
        if taker.send(std::mem::take(&mut line)).is_err() {
            return;
        }
    }
}

fn compare(sent: Receiver<Sent>, printed: Receiver<Vec<u8>>) -> Report {
    let mut report = Report::default();
    for Sent { name, line, due } in sent {
        // Nothing comes once the output has ended.
        let printed = printed.recv().unwrap_or_default();
        report.take(&format!(" ({name})"), &line, &due, &printed);
        if printed.is_empty() {
            return report;
        }
    }
    report.take_rest(&printed.into_iter().collect::<Vec<_>>().concat());
    report
}
