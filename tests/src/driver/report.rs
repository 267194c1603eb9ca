//! What was printed, compared with what is due, line by line.

use std::fmt;

/// How many mismatches are shown, and how much of a long line.
const SHOWN: usize = 5;
const SHOWN_BYTES: usize = 600;

#[derive(Default)]
pub struct Report {
    pub lines: usize,
    pub mismatches: usize,
    shown: Vec<String>,
}

impl Report {
    /// Takes what was printed for one line, with its line feed; nothing if the output has ended. `name` says which line it is.
    pub fn take(&mut self, name: &str, line: &[u8], due: &[u8], printed: &[u8]) {
        self.lines += 1;
        let fault = match printed.strip_suffix(b"\n") {
            Some(printed) if printed == due => return,
            Some(printed) => difference(due, printed),
            None if printed.is_empty() => "nothing was printed".to_string(),
            None => format!("printed without a line feed: {}", shown(printed, 0)),
        };
        self.add(format!("line {}{name}: {}\n  due {}\n  {fault}", self.lines, shown(line, 0), shown(due, 0)));
    }

    /// Takes what was printed after the last line.
    pub fn take_rest(&mut self, printed: &[u8]) {
        if !printed.is_empty() {
            self.add(format!("printed after the last line: {}", shown(printed, 0)));
        }
    }

    fn add(&mut self, mismatch: String) {
        self.mismatches += 1;
        if self.shown.len() < SHOWN {
            self.shown.push(mismatch);
        }
    }
}

impl fmt::Display for Report {
    fn fmt(&self, out: &mut fmt::Formatter) -> fmt::Result {
        for mismatch in &self.shown {
            writeln!(out, "{mismatch}")?;
        }
        write!(out, "{} lines, {} mismatches", self.lines, self.mismatches)
    }
}

fn difference(due: &[u8], printed: &[u8]) -> String {
    let at = due.iter().zip(printed).take_while(|(left, right)| left == right).count();
    // Where that is far on, both are shown from a little before it.
    let from = at.saturating_sub(SHOWN_BYTES / 2);
    let (due, printed) = (shown(due, from), shown(printed, from));
    match from {
        0 => format!("printed {printed}\n  they differ at byte {at}"),
        _ => format!("they differ at byte {at}; from byte {from} on\n  due {due}\n  printed {printed}"),
    }
}

/// Bytes as text, from a place on, cut off where they are very many.
fn shown(bytes: &[u8], from: usize) -> String {
    let bytes = &bytes[from.min(bytes.len())..];
    let cut = &bytes[..bytes.len().min(SHOWN_BYTES)];
    let rest = if cut.len() < bytes.len() { format!(" .. ({} bytes)", bytes.len()) } else { String::new() };
    format!("`{}`{rest}", cut.escape_ascii())
}
