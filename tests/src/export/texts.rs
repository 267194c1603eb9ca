//! Numbers, sheets, shows and automata as texts, and the running sheet of a show.

use crate::export::{bytes, bytes_of, cells_of, number_of, words, Given, Slice, LINE};
use crate::inclusion::Search;
use crate::layout::Told;
use crate::random::Random;
use crate::sheet::{Part, Refusal};
use crate::{buchi_text, numeral, running_sheet, sheet_text, show_text};

pub fn number_read(numbers: &[usize], slices: &mut [Slice], _: &mut Search) -> Told {
    let [text] = bytes(slices);
    let read = numeral::number(text, numbers[0]);
    read.map(|(value, next)| vec![value, next]).map_err(|place| Refusal { number: 11, part: Part::First, place })
}

pub fn sheet_read(_: &[usize], slices: &mut [Slice], _: &mut Search) -> Told {
    let [Slice::Bytes(text), Slice::Bytes(out), Slice::Seconds(seconds)] = slices else {
        unreachable!("a call has its slices")
    };
    sheet_text::read(text, out, seconds).map(|(level, length)| vec![level, length])
}

pub fn sheet_write(numbers: &[usize], slices: &mut [Slice], _: &mut Search) -> Told {
    let [Slice::Bytes(sheet), Slice::Seconds(seconds), Slice::Bytes(out)] = slices else {
        unreachable!("a call has its slices")
    };
    Ok(vec![sheet_text::write(numbers[0] as u64, sheet, seconds, out)?])
}

pub fn show_read(_: &[usize], slices: &mut [Slice], _: &mut Search) -> Told {
    let [text, prefix, period] = bytes(slices);
    show_text::read(text, prefix, period).map(|(prefix, period)| vec![prefix, period])
}

pub fn show_write(_: &[usize], slices: &mut [Slice], _: &mut Search) -> Told {
    let [prefix, period, out] = bytes(slices);
    Ok(vec![show_text::write(prefix, period, out)?])
}

pub fn import(_: &[usize], slices: &mut [Slice], _: &mut Search) -> Told {
    let [text, out] = bytes(slices);
    Ok(vec![buchi_text::import(text, out)?])
}

pub fn durations(_: &[usize], slices: &mut [Slice], _: &mut Search) -> Told {
    let [Slice::Bytes(prefix), Slice::Bytes(period), Slice::Seconds(seconds), Slice::Bytes(out)] = slices else {
        unreachable!("a call has its slices")
    };
    Ok(vec![running_sheet::write(prefix, period, seconds, out)?])
}

pub fn random_number_read(random: &mut Random, search: &mut Search) -> Given {
    let words = words(random, search, "number");
    Given { kind: LINE, numbers: vec![number_of(&words[1])], slices: vec![bytes_of(&words[0])] }
}

pub fn random_sheet_read(random: &mut Random, search: &mut Search) -> Given {
    let words = words(random, search, "read");
    let slices = vec![bytes_of(&words[0]), bytes_of(&words[1]), Slice::Seconds(cells_of(&words[2]))];
    Given { kind: LINE, numbers: Vec::new(), slices }
}

pub fn random_sheet_write(random: &mut Random, search: &mut Search) -> Given {
    let words = words(random, search, "write");
    let slices = vec![bytes_of(&words[1]), Slice::Seconds(cells_of(&words[2])), bytes_of(&words[3])];
    Given { kind: LINE, numbers: vec![number_of(&words[0])], slices }
}

pub fn random_durations(random: &mut Random, search: &mut Search) -> Given {
    let words = words(random, search, "durations");
    let [prefix, period, out] = [0, 1, 3].map(|at| bytes_of(&words[at]));
    Given { kind: LINE, numbers: Vec::new(), slices: vec![prefix, period, Slice::Seconds(cells_of(&words[2])), out] }
}
