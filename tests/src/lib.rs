//! The calls written a second time, from the papers alone, and what holds the static library and the programs `compare`, `verdict`,
//! `durations`, `cart`, `pack` and `unpack` to them.
//!
//! `sheet`, `verdict`, `pass`, `inclusion`, `standing`, `emptiness`, `boolean`, `cursor`, `numeral`, `sheet_text`, `show_text`,
//! `running_sheet`, `cart`, `buchi` and `buchi_text` are the independent implementation (`lent` and `text_reader` are what they share);
//! `naive` tries all short lassos and checks `inclusion` and `emptiness`; `plain` searches in another way than both, and checks them and
//! the library.
//! `stack` makes a call on a thread with a stack of a given size.
//! `library` calls the static library; `declarations` holds what it declares to the header and to the exports' source. `export` has a row
//! for each call, on slices that `guarded` lends; `layout` has the bytes of the answers that are due. `generate`, `mix` and `case` make
//! sheets and cases at random, `rows` has those of the papers, `check` runs one and compares all bytes, `tally` counts them, and `crash`
//! names the one that broke off.
//! `by_lines` is the driver, which makes every call of the library by lines; `driver` holds it to the implementation, line by line.
//! `printed` has what the programs `compare`, `verdict` and `durations` are due to print, `said` what is due on standard error, `packing`
//! what `pack` and `unpack` are due to print and make, `loading` the same of `cart`, `forms` a sheet's file in any form, and `program_runs`
//! runs any of them on files at random, some of which `random_files` makes.

pub mod boolean;
pub mod buchi;
pub mod buchi_text;
pub mod by_lines;
pub mod cart;
pub mod case;
pub mod check;
pub mod crash;
pub mod cursor;
pub mod declarations;
pub mod driver;
pub mod emptiness;
pub mod export;
pub mod forms;
pub mod generate;
pub mod guarded;
pub mod inclusion;
pub mod layout;
pub mod lent;
pub mod library;
pub mod loading;
pub mod mix;
pub mod naive;
pub mod numeral;
pub mod packing;
pub mod pass;
pub mod plain;
pub mod printed;
pub mod program_runs;
pub mod random;
pub mod random_files;
pub mod rows;
pub mod running_sheet;
pub mod said;
pub mod sheet;
pub mod sheet_text;
pub mod show_text;
pub mod stack;
pub mod standing;
pub mod tally;
pub mod text_reader;
pub mod verdict;
