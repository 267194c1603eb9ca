//! The driver: the library's calls by the lines of DRIVER.md, one line in, one line out.
//!
//! `table` has a row for each call; `sheets`, `searches`, `walking` and `texts` make the calls, each with exactly the slices of its line;
//! `told` lends the answer slice and puts an answer or a refusal into words. The words of a line are read and printed by `driver::line`.

mod searches;
mod sheets;
mod table;
mod texts;
mod told;
mod walking;

use crate::driver::line::{any_slice, NoCall};
use std::io::{BufRead, BufReader, Read, Result, Write};

const BUFFER: usize = 1 << 16;

/// Answers every line of the input. What is printed goes out whenever no whole line is left to answer.
pub fn answer_lines(input: impl Read, output: &mut impl Write) -> Result<()> {
    let mut input = BufReader::with_capacity(BUFFER, input);
    let mut line = Vec::new();
    loop {
        if !input.buffer().contains(&b'\n') {
            output.flush()?;
        }
        line.clear();
        if input.read_until(b'\n', &mut line)? == 0 {
            return Ok(());
        }
        print_answer(line.strip_suffix(b"\n").unwrap_or(&line), output)?;
    }
}

/// Prints what is due for a line, which is without its line feed.
fn print_answer(line: &[u8], output: &mut impl Write) -> Result<()> {
    if line.starts_with(b"#") {
        output.write_all(line)?;
    } else {
        output.write_all(answer(line).as_deref().unwrap_or("no call").as_bytes())?;
    }
    output.write_all(b"\n")
}

fn answer(line: &[u8]) -> std::result::Result<String, NoCall> {
    let words: Vec<&[u8]> = line.split(|&byte| byte == b' ').collect();
    let row = table::CALLS.iter().find(|row| row.0.as_bytes() == words[0]).ok_or(NoCall::Wrong)?;
    (row.1)(&words[1..])
}

/// The words of a call, as many as it takes.
fn each<'a, const COUNT: usize>(words: &[&'a [u8]]) -> std::result::Result<[&'a [u8]; COUNT], NoCall> {
    words.try_into().map_err(|_| NoCall::Wrong)
}

/// The arguments of a call that takes byte slices only.
fn bytes<const COUNT: usize>(words: &[&[u8]]) -> std::result::Result<[Vec<u8>; COUNT], NoCall> {
    let words = each::<COUNT>(words)?;
    let mut slices = [const { Vec::new() }; COUNT];
    for (cells, word) in slices.iter_mut().zip(words) {
        *cells = any_slice(word)?;
    }
    Ok(slices)
}

#[cfg(test)]
mod tests {
    use super::*;

    fn printed(input: &[u8]) -> String {
        let mut output = Vec::new();
        answer_lines(input, &mut output).unwrap();
        String::from_utf8(output).unwrap()
    }

    /// Every call that the checker knows, and no other.
    #[test]
    fn the_table_is_the_checkers() {
        let checked = crate::driver::calls::CALLS.iter().map(|call| call.name);
        assert!(checked.eq(table::CALLS.iter().map(|row| row.0)));
    }

    #[test]
    fn each_line_has_one_answer() {
        assert_eq!(printed(b""), "");
        assert_eq!(printed(b"\n"), "no call\n");
        assert_eq!(printed(b"# a\r\nstart -\nstart 7"), "# a\r\ncursor loop 0\ncursor opening 0\n");
        assert_eq!(printed(b" start -\nstart - \nstart  -\nStart -\nstart\nstart 256"), "no call\n".repeat(6));
    }

    /// Of an input that comes in parts, every whole line is answered before the next part is asked for.
    #[test]
    fn an_answer_does_not_wait_for_the_next_line() {
        struct Parts<'a>(&'a [&'a [u8]]);
        impl Read for Parts<'_> {
            fn read(&mut self, buffer: &mut [u8]) -> Result<usize> {
                let Some((part, rest)) = self.0.split_first() else { return Ok(0) };
                self.0 = rest;
                buffer[..part.len()].copy_from_slice(part);
                Ok(part.len())
            }
        }
        #[derive(Default)]
        struct Flushed(Vec<u8>, Vec<usize>);
        impl Write for Flushed {
            fn write(&mut self, bytes: &[u8]) -> Result<usize> {
                self.0.extend(bytes);
                Ok(bytes.len())
            }
            fn flush(&mut self) -> Result<()> {
                self.1.push(self.0.len());
                Ok(())
            }
        }
        let mut output = Flushed::default();
        answer_lines(Parts(&[b"#1\n#2\n#", b"3\n#4\n", b"#5"]), &mut output).unwrap();
        assert_eq!(output.0, b"#1\n#2\n#3\n#4\n#5\n");
        assert_eq!(output.1, [0, 6, 12, 15]);
    }
}
