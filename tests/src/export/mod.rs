//! Every call of include/fdfa.h as one row: the arguments at random, what is due for them, and the call itself.
//!
//! `table` has the rows; `calls` the calls on lent slices; `players`, `sheets`, `searches`, `walking` and `texts` what is due and arguments
//! at random. Most of those are the words of a line for the driver, with their edges and faults.

mod calls;
mod players;
mod searches;
mod sheets;
mod table;
mod texts;
mod walking;

pub use searches::with_work;
pub use table::{COMPARE, EXPORTS, VERDICT};

use crate::driver::calls::CALLS;
use crate::driver::line;
use crate::guarded::{Placement, Region};
use crate::inclusion::Search;
use crate::layout::Told;
use crate::random::Random;

/// A slice, with what it holds.
#[derive(Clone, Debug, PartialEq, Eq)]
pub enum Slice {
    Bytes(Vec<u8>),
    Seconds(Vec<u16>),
    Work(Vec<u64>),
}

/// What a call is given, but for its answer slice.
pub struct Given {
    /// What it counts as.
    pub kind: &'static str,
    pub numbers: Vec<usize>,
    pub slices: Vec<Slice>,
}

pub struct Export {
    /// Its name in the header, without `fdfa_`.
    pub name: &'static str,
    pub answer_bytes: usize,
    /// The names of its numbers, and of its slices but for the answer slice, each in their order.
    pub numbers: &'static [&'static str],
    pub slices: &'static [&'static str],
    /// Two slices that are only read: one and the same may be lent for both.
    pub readable: Option<[usize; 2]>,
    pub random: fn(&mut Random, &mut Search) -> Given,
    /// The answer that is due; the slices are changed as is due.
    pub due: fn(&[usize], &mut [Slice], &mut Search) -> Told,
    /// Calls the library, on the slices and the answer slice.
    pub call: fn(&[usize], &mut [Region]) -> u32,
    /// The refusals that it can give: number and part, as the driver prints them.
    pub refusals: &'static [&'static [&'static str]],
}

impl Slice {
    pub fn len(&self) -> usize {
        match self {
            Slice::Bytes(cells) => cells.len(),
            Slice::Seconds(cells) => cells.len(),
            Slice::Work(cells) => cells.len(),
        }
    }

    pub fn is_empty(&self) -> bool {
        self.len() == 0
    }

    pub fn lend(&self, region: &mut Region, placement: Placement) {
        match self {
            Slice::Bytes(cells) => region.lend(cells, placement),
            Slice::Seconds(cells) => region.lend(cells, placement),
            Slice::Work(cells) => region.lend(cells, placement),
        }
    }

    /// Compares what the region holds.
    pub fn verify(&self, region: &Region) -> Result<(), String> {
        match self {
            Slice::Bytes(cells) => region.verify(cells),
            Slice::Seconds(cells) => region.verify(cells),
            Slice::Work(cells) => region.verify(cells),
        }
    }
}

/// The arguments of a line at random of the driver's call, word by word.
fn words(random: &mut Random, search: &mut Search, name: &str) -> Vec<String> {
    let call = CALLS.iter().find(|call| call.name == name).expect("the driver has the call");
    (call.random)(random, search).split(' ').map(str::to_string).collect()
}

const LINE: &str = "as in a line";

/// Of a call that is given byte slices only.
fn of_bytes(random: &mut Random, search: &mut Search, name: &str) -> Given {
    let slices = words(random, search, name).iter().map(|word| bytes_of(word)).collect();
    Given { kind: LINE, numbers: Vec::new(), slices }
}

fn bytes_of(word: &str) -> Slice {
    Slice::Bytes(cells_of(word))
}

fn cells_of<T: line::Cell>(word: &str) -> Vec<T> {
    line::slice(word.as_bytes()).expect("a line at random has its slices")
}

fn number_of(word: &str) -> usize {
    line::number(word.as_bytes()).expect("a line at random has its numbers") as usize
}

/// The slices of a call that is given byte slices only.
fn bytes<const COUNT: usize>(slices: &mut [Slice]) -> [&mut Vec<u8>; COUNT] {
    let mut slices = slices.iter_mut();
    std::array::from_fn(|_| match slices.next() {
        Some(Slice::Bytes(cells)) => cells,
        _ => unreachable!("a call has its slices"),
    })
}

#[cfg(test)]
mod tests {
    use super::*;
    use crate::declarations::header;

    /// Every function of the header has its row, with its parameters but for the lengths and in their order.
    #[test]
    fn the_table_is_the_header() {
        let text = include_str!("../../../include/fdfa.h");
        let (functions, constants) = (header::functions(text).unwrap(), header::constants(text).unwrap());
        assert_eq!(functions.len(), EXPORTS.len());
        for (function, export) in functions.iter().zip(&EXPORTS) {
            assert_eq!(function.name, format!("fdfa_{}", export.name));
            assert_eq!(constants[&format!("{}_BYTES", export.name.to_uppercase())], export.answer_bytes as u64);
            let of = |slice: bool| {
                let length = |name: &str| function.parameters.iter().any(|other| other.name == format!("{name}_len"));
                let names = function.parameters.iter().map(|parameter| parameter.name.as_str());
                let names = names.filter(move |name| !name.ends_with("_len") && length(name) == slice);
                names.map(|name| name.replace("prefix", "opening").replace("period", "loop")).collect::<Vec<_>>()
            };
            assert_eq!((of(false), of(true)), (listed(export.numbers, &[]), listed(export.slices, &["answer"])));
        }
    }

    fn listed(names: &[&str], more: &[&str]) -> Vec<String> {
        names.iter().chain(more).map(|name| name.to_string()).collect()
    }
}
