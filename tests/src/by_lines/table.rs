//! The table of calls. A new call is a row here.

use crate::by_lines::{searches, sheets, texts, walking};
use crate::driver::line::NoCall;

/// A call's name and what is printed for the words after it.
pub type Row = (&'static str, fn(&[&[u8]]) -> Result<String, NoCall>);

pub const CALLS: &[Row] = &[
    ("check", sheets::check),
    ("verdict", sheets::verdict),
    ("complement", sheets::complement),
    ("intersection", sheets::intersection),
    ("union", sheets::union),
    ("compare", searches::compare),
    ("emptiness", searches::emptiness),
    ("start", walking::start),
    ("step", walking::step),
    ("rest", walking::rest),
    ("number", texts::number),
    ("read", texts::read),
    ("write", texts::write),
    ("read-show", texts::read_show),
    ("write-show", texts::write_show),
    ("pass", walking::pass),
    ("import", texts::import),
    ("durations", texts::durations),
    ("cart", sheets::cart),
];
