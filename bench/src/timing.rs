//! One row: both sides on the same inputs, turn about.

use std::hint::black_box;

pub const ROUNDS: usize = 15;
/// Calls between two looks at the clock: enough to last about this long on the Rust side.
const SAMPLE_MS: f64 = 4.0;

/// The rows whose names have the wanted words, and how many there were.
pub struct Table {
    pub wanted: String,
    pub printed: usize,
}

impl Table {
    /// Calls each side once, on lent slices of its own, compares all that they left, then times both and prints the row.
    pub fn row<L: Clone + PartialEq>(
        &mut self,
        name: &str,
        lent: L,
        rust: impl FnMut(&mut L),
        library: impl FnMut(&mut L),
    ) {
        if !name.contains(&self.wanted) {
            return;
        }
        let (mut ours, mut theirs) = (lent.clone(), lent);
        let (mut rust, mut library) = (rust, library);
        rust(&mut ours);
        library(&mut theirs);
        assert!(ours == theirs, "{name}: the answers differ");
        time(name, || rust(black_box(&mut ours)), || library(black_box(&mut theirs)));
        self.printed += 1;
    }
}

/// Times both sides in turn and prints the line of the table.
fn time(name: &str, mut rust: impl FnMut(), mut library: impl FnMut()) {
    let once = sample(1, &mut rust);
    let calls = (SAMPLE_MS / once).clamp(1.0, 100_000.0) as usize;
    let (mut rust_times, mut library_times) = (Vec::new(), Vec::new());
    for round in 0..ROUNDS {
        if round % 2 == 0 {
            rust_times.push(sample(calls, &mut rust));
            library_times.push(sample(calls, &mut library));
        } else {
            library_times.push(sample(calls, &mut library));
            rust_times.push(sample(calls, &mut rust));
        }
    }
    rust_times.sort_by(f64::total_cmp);
    library_times.sort_by(f64::total_cmp);
    let (rust, library) = (rust_times[ROUNDS / 2], library_times[ROUNDS / 2]);
    let fastest = library_times[0] / rust_times[0];
    println!("| {name} | {rust:.3} | {library:.3} | {:.2} | {fastest:.2} |", library / rust);
}

/// Milliseconds of processor time for one call, from that many calls.
fn sample(calls: usize, call: &mut impl FnMut()) -> f64 {
    let began = processor_ms();
    for _ in 0..calls {
        call();
    }
    (processor_ms() - began) / calls as f64
}

#[repr(C)]
struct Time {
    seconds: i64,
    nanoseconds: i64,
}

extern "C" {
    fn clock_gettime(clock: i32, time: *mut Time) -> i32;
}

/// The time that this thread has had a processor, in milliseconds: what other programs take does not count.
fn processor_ms() -> f64 {
    const THREAD_PROCESSOR_TIME: i32 = 3;
    let mut time = Time { seconds: 0, nanoseconds: 0 };
    // The struct has the layout of C's timespec on 64-bit Linux and is writable.
    let failed = unsafe { clock_gettime(THREAD_PROCESSOR_TIME, &mut time) };
    assert_eq!(failed, 0, "the clock cannot be read");
    time.seconds as f64 * 1e3 + time.nanoseconds as f64 / 1e6
}
