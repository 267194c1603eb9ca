//! The driver held to the independent implementation: one line in, one line out.
//!
//! `line` has the words of a line; `calls` the table of calls and what a line prints; `membership`, `boolean`, `inclusion`, `cursor`,
//! `notation`, `shows`, `pass`, `imports`, `durations` and `carts` answer the calls of their subject and make lines for them at random.
//! `random_line` mixes those with damaged lines and comments, `changes` has every change of one byte of six texts and a cart, `long_shows`
//! shows at the programs' bounds, `long_durations` running sheets of the longest parts, `long_slices` what is longer than a driver takes at
//! least, `imported` automata with verdicts on their sheets, `cuts` prefixes in parts with verdicts on
//! them, `session` sends lines through one run of the driver, `report` compares what it prints, `coverage` counts the outcomes, and `rows`
//! has the lines that are stored. `stand_in` is a driver with a fault: `damaged_answer` has those of one field, `wrong_pass` those of a
//! pass, `wrong_level` those of reading and writing at two levels; `wrong_durations` has those of running sheets, `wrong_carts` those of
//! carts.

pub mod boolean;
pub mod calls;
pub mod carts;
pub mod changes;
pub mod coverage;
pub mod cursor;
pub mod cuts;
pub mod damaged_answer;
pub mod damaged_line;
pub mod durations;
pub mod imported;
pub mod imports;
pub mod inclusion;
pub mod line;
pub mod long_durations;
pub mod long_shows;
pub mod long_slices;
pub mod membership;
pub mod notation;
pub mod pass;
pub mod random_automaton;
pub mod random_cart;
pub mod random_line;
pub mod random_seconds;
pub mod random_sheets;
pub mod random_show;
pub mod random_text;
pub mod report;
pub mod rows;
pub mod session;
pub mod shows;
pub mod stand_in;
pub mod wrong_carts;
pub mod wrong_durations;
pub mod wrong_level;
pub mod wrong_pass;
