//! A sample in the three languages, and faults planted in it: each is found.

use crate::declarations::{differences, Sources};

const EXPORTS: &str = r#"
// A call. extern "C" in a comment is none.
fn inner(sheet: &[u8]) -> usize
    ensures { result ≡ length sheet.now }
{
    sheet.len()
}

#[unsafe(no_mangle)]
pub extern "C" fn fdfa_pass_start(answer: &mut [u8]) -> u32
    ensures { Told 32 start_numbers answer.old answer.new result }
{
    told(&prefix_pass::start(), answer)
}

// The pass goes on.
#[unsafe(no_mangle)]
pub extern "C" fn fdfa_pass_on(
    sheet: &[u8],
    failed: usize,
    state: usize,
    position: usize,
    part: &[u8],
    answer: &mut [u8],
) -> u32
    ensures { Told 32 (pass_numbers sheet.now failed) answer.old answer.new result }
{
    0
}

#[unsafe(no_mangle)]
pub extern "C" fn fdfa_sheet_write(level: usize, sheet: &[u8], seconds: &[u16], out: &mut [u8], answer: &mut [u8]) -> u32
{
    0
}

#[unsafe(no_mangle)]
pub extern "C" fn fdfa_cursor_rest<'a>(part: usize, position: usize, prefix: &'a [u8], period: &'a [u8], answer: &mut [u8]) -> u32
{
    0
}

#[unsafe(no_mangle)]
pub extern "C" fn fdfa_emptiness(sheet: &[u8], prefix: &mut [u8], period: &mut [u8], work: &mut [u64], answer: &mut [u8]) -> u32
{
    0
}
"#;

const HEADER: &str = r"
#define FDFA_PASS_START_BYTES 32
#define FDFA_PASS_ON_BYTES 32
#define FDFA_SHEET_WRITE_BYTES 24
#define FDFA_EMPTINESS_BYTES 72
#define FDFA_CURSOR_REST_BYTES 32
enum fdfa_part { FDFA_FIRST = 0 };
/* fdfa_none(size_t in_a_comment); */
static inline uint64_t fdfa_number(const uint8_t *answer, size_t index)
{
    return answer[index];
}
uint32_t fdfa_pass_start(uint8_t *answer, size_t answer_len);
/* The pass goes on. */
uint32_t fdfa_pass_on(const uint8_t *sheet, size_t sheet_len,
                      size_t failed, size_t state, size_t position,
                      const uint8_t *part, size_t part_len,
                      uint8_t *answer, size_t answer_len);
uint32_t fdfa_sheet_write(size_t level,
                          const uint8_t *sheet, size_t sheet_len,
                          const uint16_t *seconds, size_t seconds_len,
                          uint8_t *out, size_t out_len,
                          uint8_t *answer, size_t answer_len);
uint32_t fdfa_cursor_rest(size_t part, size_t position,
                          const uint8_t *opening, size_t opening_len,
                          const uint8_t *loop, size_t loop_len,
                          uint8_t *answer, size_t answer_len);
uint32_t fdfa_emptiness(const uint8_t *sheet, size_t sheet_len,
                        uint8_t *opening, size_t opening_len,
                        uint8_t *loop, size_t loop_len,
                        uint64_t *work, size_t work_len,
                        uint8_t *answer, size_t answer_len);
";

const DECLARED: &str = r#"
extern "C" {
    pub fn fdfa_pass_start(answer: *mut u8, answer_len: usize) -> u32;
    pub fn fdfa_pass_on(
        sheet: *const u8,
        sheet_len: usize,
        failed: usize,
        state: usize,
        position: usize,
        part: *const u8,
        part_len: usize,
        answer: *mut u8,
        answer_len: usize,
    ) -> u32;
    pub fn fdfa_sheet_write(
        level: usize,
        sheet: *const u8,
        sheet_len: usize,
        seconds: *const u16,
        seconds_len: usize,
        out: *mut u8,
        out_len: usize,
        answer: *mut u8,
        answer_len: usize,
    ) -> u32;
    pub fn fdfa_cursor_rest(
        part: usize,
        position: usize,
        prefix: *const u8,
        prefix_len: usize,
        period: *const u8,
        period_len: usize,
        answer: *mut u8,
        answer_len: usize,
    ) -> u32;
    pub fn fdfa_emptiness(
        sheet: *const u8,
        sheet_len: usize,
        prefix: *mut u8,
        prefix_len: usize,
        period: *mut u8,
        period_len: usize,
        work: *mut u64,
        work_len: usize,
        answer: *mut u8,
        answer_len: usize,
    ) -> u32;
}
"#;

const CONSTANTS: &str = r"
pub const PASS_START_BYTES: usize = 32;
pub const PASS_ON_BYTES: usize = 32;
pub const SHEET_WRITE_BYTES: usize = 24;
pub const EMPTINESS_BYTES: usize = 72;
pub const CURSOR_REST_BYTES: usize = 32;
pub const STANDINGS: Range<usize> = 40..72;
";

fn sample() -> Sources {
    let [exports, header, declared, constants] = [EXPORTS, HEADER, DECLARED, CONSTANTS].map(str::to_string);
    Sources { exports, header, declared, constants }
}

/// All that differs, or that is not understood.
fn faults(sources: &Sources) -> Vec<String> {
    sources.read().map_or_else(|fault| vec![fault], |read| differences(&read))
}

/// One planted fault: its file, what stands there, and what is put in its place.
type Fault = (fn(&mut Sources) -> &mut String, &'static str, &'static str);

const EXPORT: fn(&mut Sources) -> &mut String = |sources| &mut sources.exports;
const C: fn(&mut Sources) -> &mut String = |sources| &mut sources.header;
const RUST: fn(&mut Sources) -> &mut String = |sources| &mut sources.declared;
const LENGTH: fn(&mut Sources) -> &mut String = |sources| &mut sources.constants;

const FAULTS: &[Fault] = &[
    // A parameter that is moved.
    (EXPORT, "    failed: usize,\n    state: usize,\n", "    state: usize,\n    failed: usize,\n"),
    (EXPORT, "prefix: &mut [u8], period: &mut [u8]", "period: &mut [u8], prefix: &mut [u8]"),
    (EXPORT, "level: usize, sheet: &[u8],", "sheet: &[u8], level: usize,"),
    (C, "size_t failed, size_t state", "size_t state, size_t failed"),
    (
        C,
        "size_t level,\n                          const uint8_t *sheet, size_t sheet_len,",
        "const uint8_t *sheet, size_t sheet_len, size_t level,",
    ),
    (C, "const uint8_t *part, size_t part_len", "size_t part_len, const uint8_t *part"),
    (RUST, "        failed: usize,\n        state: usize,\n", "        state: usize,\n        failed: usize,\n"),
    (EXPORT, "prefix: &'a [u8], period: &'a [u8]", "period: &'a [u8], prefix: &'a [u8]"),
    // One that is missing, or has another name.
    (EXPORT, "    position: usize,\n", ""),
    (C, ", size_t position", ""),
    (RUST, "        work_len: usize,\n", ""),
    (C, "size_t failed", "size_t fails"),
    // Another type.
    (EXPORT, "seconds: &[u16]", "seconds: &[u8]"),
    (C, "const uint16_t *seconds", "const uint8_t *seconds"),
    (RUST, "seconds: *const u16", "seconds: *const u8"),
    (C, "uint64_t *work", "uint32_t *work"),
    (EXPORT, "failed: usize", "failed: u64"),
    (EXPORT, "prefix: &'a [u8]", "prefix: &'a [u16]"),
    (C, "size_t failed", "uint32_t failed"),
    (C, "uint32_t fdfa_pass_on", "uint64_t fdfa_pass_on"),
    (RUST, ") -> u32;", ") -> u64;"),
    (EXPORT, ") -> u32\n", ") -> bool\n"),
    // Read for written, and the other way about.
    (C, "const uint16_t *seconds", "uint16_t *seconds"),
    (C, "uint8_t *out", "const uint8_t *out"),
    (RUST, "seconds: *const u16", "seconds: *mut u16"),
    (EXPORT, "out: &mut [u8]", "out: &[u8]"),
    // A function that is missing, twice there, not exported, or has another name.
    (C, "uint32_t fdfa_pass_start(uint8_t *answer, size_t answer_len);", ""),
    (RUST, "    pub fn fdfa_pass_start(answer: *mut u8, answer_len: usize) -> u32;\n", ""),
    (EXPORT, "fn fdfa_pass_start(", "fn fdfa_pass_begin("),
    (EXPORT, "fn fdfa_pass_start(answer", "fn fdfa_pass_on(answer"),
    (EXPORT, "#[unsafe(no_mangle)]\npub extern \"C\" fn fdfa_pass_on", "pub extern \"C\" fn fdfa_pass_on"),
    (EXPORT, "pub extern \"C\" fn fdfa_pass_on", "pub fn fdfa_pass_on"),
    (EXPORT, "pub extern \"C\" fn fdfa_pass_on", "extern \"C\" fn fdfa_pass_on"),
    // A constant that differs, or is missing.
    (C, "FDFA_PASS_ON_BYTES 32", "FDFA_PASS_ON_BYTES 24"),
    (LENGTH, "PASS_ON_BYTES: usize = 32", "PASS_ON_BYTES: usize = 40"),
    (C, "#define FDFA_EMPTINESS_BYTES 72\n", ""),
    (LENGTH, "pub const EMPTINESS_BYTES: usize = 72;\n", ""),
];

#[test]
fn the_sample_agrees() {
    assert_eq!(faults(&sample()), Vec::<String>::new());
    let names = sample().read().unwrap().map(|read| read.functions.len());
    assert_eq!(names, [5; 3]);
}

#[test]
fn every_planted_fault_is_found() {
    for (file, due, planted) in FAULTS {
        let mut sources = sample();
        let text = file(&mut sources);
        assert!(text.contains(due), "{due}");
        *text = text.replacen(due, planted, 1);
        assert!(!faults(&sources).is_empty(), "{due} -> {planted}");
    }
}

#[test]
fn where_nothing_is_found_that_is_told() {
    for file in [EXPORT, C, RUST, LENGTH] {
        let mut sources = sample();
        file(&mut sources).clear();
        assert!(!faults(&sources).is_empty());
    }
    let empty = Sources { declared: "extern \"C\" {}".to_string(), ..Sources::default() };
    assert_eq!(faults(&empty).len(), 3);
}
