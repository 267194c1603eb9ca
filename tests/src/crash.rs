//! Says which case was running when the library touched memory that it was not lent, and ends the run.

use std::sync::atomic::{AtomicU64, Ordering};

/// Illegal instruction, abort, bus error, arithmetic fault, inaccessible memory: numbers of Linux.
const SIGNALS: [i32; 5] = [4, 6, 7, 8, 11];

static SEED: AtomicU64 = AtomicU64::new(0);

extern "C" {
    fn signal(number: i32, handler: extern "C" fn(i32)) -> usize;
    fn write(file: i32, bytes: *const u8, count: usize) -> isize;
    fn _exit(status: i32) -> !;
}

pub fn watch() {
    for number in SIGNALS {
        // The handler only reads an atomic number and calls what a handler may call.
        unsafe { signal(number, report) };
    }
}

/// The seed of the case that runs from now on; 0 for the papers' rows.
pub fn now_running(seed: u64) {
    SEED.store(seed, Ordering::Relaxed);
}

extern "C" fn report(number: i32) {
    print(b"FAILED: crashed by signal ");
    print_number(number as u64);
    print(b", seed ");
    print_number(SEED.load(Ordering::Relaxed));
    print(b"\n");
    // Nothing of the program runs after this.
    unsafe { _exit(1) }
}

fn print(text: &[u8]) {
    // The bytes are alive for the call.
    unsafe { write(1, text.as_ptr(), text.len()) };
}

fn print_number(mut number: u64) {
    let mut digits = [0; 20];
    let mut at = digits.len();
    loop {
        at -= 1;
        digits[at] = b'0' + (number % 10) as u8;
        number /= 10;
        if number == 0 {
            return print(&digits[at..]);
        }
    }
}
