//! The text of the largest sheet and of a long show, read and written, and the longest running sheet.

use crate::timing::Table;
use outside::layout::{put, DURATIONS_BYTES, SHEET_READ_BYTES, SHEET_WRITE_BYTES, SHOW_READ_BYTES, SHOW_WRITE_BYTES};
use outside::random::Random;
use outside::running_sheet::{self, LONGEST};
use outside::sheet::{Part, Sheet, MOST};
use outside::{library, sheet_text, show_text};
use std::hint::black_box;

pub fn time(table: &mut Table) {
    time_sheet(table);
    time_show(table);
    time_running_sheet(table);
}

/// A sheet of 32 scenes, n places and k places in each loop automaton; every number has as many digits as it can.
fn sheet(n: usize, k: usize) -> Vec<u8> {
    let (n8, k8) = (n as u8, k as u8);
    let mut bytes = vec![MOST as u8, n8];
    bytes.extend(vec![k8; n]);
    bytes.extend(vec![n8 - 1; n * MOST]);
    for _ in 0..n {
        bytes.extend(vec![k8 - 1; k * MOST]);
        bytes.extend(vec![1; k]);
    }
    bytes
}

/// At level four, where the scenes have seconds.
fn time_sheet(table: &mut Table) {
    const LEVEL: usize = 4;
    let (sheet, seconds) = (sheet(MOST, MOST), vec![999; MOST]);
    let text = sheet_text::text_of(LEVEL, &Sheet::read(&sheet, Part::First).expect("it is in order"), &seconds);
    let text = text.into_bytes();
    let bytes = text.len();

    type Read = (Vec<u8>, Vec<u16>, [u8; SHEET_READ_BYTES]);
    let rust = |(out, seconds, answer): &mut Read| {
        let read = sheet_text::read(black_box(&text), out, seconds);
        put(answer, &read.map(|(level, length)| vec![level, length]));
    };
    let library = |(out, seconds, answer): &mut Read| {
        library::sheet_read((&text).into(), out.into(), seconds.into(), answer.as_mut_slice().into());
    };
    let lent = (vec![0; sheet.len()], vec![0; MOST], [0; SHEET_READ_BYTES]);
    table.row(&format!("sheet text read, {bytes} bytes"), lent, rust, library);

    type Written = (Vec<u8>, [u8; SHEET_WRITE_BYTES]);
    let rust = |(out, answer): &mut Written| {
        let written = sheet_text::write(LEVEL as u64, black_box(&sheet), black_box(&seconds), out);
        put(answer, &written.map(|length| vec![length]));
    };
    let library = |(out, answer): &mut Written| {
        let answer = answer.as_mut_slice();
        library::sheet_write(LEVEL, (&sheet).into(), (&seconds).into(), out.into(), answer.into());
    };
    let lent = (vec![0; bytes], [0; SHEET_WRITE_BYTES]);
    table.row(&format!("sheet text written, {bytes} bytes"), lent, rust, library);
}

fn time_show(table: &mut Table) {
    const SCENES: usize = 50_000;
    let mut random = Random::new(15);
    let (prefix, period) = (random.word(SCENES, MOST), random.word(SCENES, MOST));
    let text = show_text::text_of(&prefix, &period).into_bytes();
    let bytes = text.len();

    type Read = (Vec<u8>, Vec<u8>, [u8; SHOW_READ_BYTES]);
    let rust = |(prefix, period, answer): &mut Read| {
        let read = show_text::read(black_box(&text), prefix, period);
        put(answer, &read.map(|(prefix, period)| vec![prefix, period]));
    };
    let library = |(prefix, period, answer): &mut Read| {
        library::show_read((&text).into(), prefix.into(), period.into(), answer.as_mut_slice().into());
    };
    let lent = (vec![0; SCENES], vec![0; SCENES], [0; SHOW_READ_BYTES]);
    table.row(&format!("show text read, {bytes} bytes"), lent, rust, library);

    type Written = (Vec<u8>, [u8; SHOW_WRITE_BYTES]);
    let rust = |(out, answer): &mut Written| {
        let written = show_text::write(black_box(&prefix), black_box(&period), out);
        put(answer, &written.map(|length| vec![length]));
    };
    let library = |(out, answer): &mut Written| {
        library::show_write((&prefix).into(), (&period).into(), out.into(), answer.as_mut_slice().into());
    };
    table.row(&format!("show text written, {bytes} bytes"), (vec![0; bytes], [0; SHOW_WRITE_BYTES]), rust, library);
}

/// Both parts as long as they may be, with 32 scenes.
fn time_running_sheet(table: &mut Table) {
    let mut random = Random::new(16);
    let (prefix, period) = (random.word(LONGEST, MOST), random.word(LONGEST, MOST));
    let seconds: Vec<u16> = (0..MOST).map(|_| random.between(1, 999) as u16).collect();
    let bytes = running_sheet::text_of(&prefix, &period, &seconds).len();

    type Written = (Vec<u8>, [u8; DURATIONS_BYTES]);
    let rust = |(out, answer): &mut Written| {
        let written = running_sheet::write(black_box(&prefix), black_box(&period), black_box(&seconds), out);
        put(answer, &written.map(|length| vec![length]));
    };
    let library = |(out, answer): &mut Written| {
        let answer = answer.as_mut_slice();
        library::durations((&prefix).into(), (&period).into(), (&seconds).into(), out.into(), answer.into());
    };
    let lent = (vec![0; bytes], [0; DURATIONS_BYTES]);
    table.row(&format!("running sheet written, {bytes} bytes"), lent, rust, library);
}
