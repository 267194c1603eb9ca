//! The calls of include/fdfa.h, parameter by parameter in the header's order. What the header calls `opening` and `loop` is `prefix` and
//! `period` here. The program `declarations` holds this file, the header and the exports to each other.

extern "C" {
    pub fn fdfa_verdict(
        sheet: *const u8,
        sheet_len: usize,
        prefix: *const u8,
        prefix_len: usize,
        period: *const u8,
        period_len: usize,
        answer: *mut u8,
        answer_len: usize,
    ) -> u32;
    pub fn fdfa_compare(
        first: *const u8,
        first_len: usize,
        second: *const u8,
        second_len: usize,
        prefix: *mut u8,
        prefix_len: usize,
        period: *mut u8,
        period_len: usize,
        answer: *mut u8,
        answer_len: usize,
    ) -> u32;
    pub fn fdfa_check(sheet: *const u8, sheet_len: usize, answer: *mut u8, answer_len: usize) -> u32;
    pub fn fdfa_complement(
        sheet: *const u8,
        sheet_len: usize,
        out: *mut u8,
        out_len: usize,
        answer: *mut u8,
        answer_len: usize,
    ) -> u32;
    pub fn fdfa_intersection(
        first: *const u8,
        first_len: usize,
        second: *const u8,
        second_len: usize,
        out: *mut u8,
        out_len: usize,
        answer: *mut u8,
        answer_len: usize,
    ) -> u32;
    pub fn fdfa_union(
        first: *const u8,
        first_len: usize,
        second: *const u8,
        second_len: usize,
        out: *mut u8,
        out_len: usize,
        answer: *mut u8,
        answer_len: usize,
    ) -> u32;
    pub fn fdfa_compare_in(
        first: *const u8,
        first_len: usize,
        second: *const u8,
        second_len: usize,
        prefix: *mut u8,
        prefix_len: usize,
        period: *mut u8,
        period_len: usize,
        work: *mut u64,
        work_len: usize,
        answer: *mut u8,
        answer_len: usize,
    ) -> u32;
    pub fn fdfa_emptiness(
        sheet: *const u8,
        sheet_len: usize,
        prefix: *mut u8,
        prefix_len: usize,
        period: *mut u8,
        period_len: usize,
        work: *mut u64,
        work_len: usize,
        answer: *mut u8,
        answer_len: usize,
    ) -> u32;
    pub fn fdfa_cursor_start(prefix: *const u8, prefix_len: usize, answer: *mut u8, answer_len: usize) -> u32;
    pub fn fdfa_cursor_step(
        part: usize,
        position: usize,
        prefix: *const u8,
        prefix_len: usize,
        period: *const u8,
        period_len: usize,
        answer: *mut u8,
        answer_len: usize,
    ) -> u32;
    pub fn fdfa_cursor_rest(
        part: usize,
        position: usize,
        prefix: *const u8,
        prefix_len: usize,
        period: *const u8,
        period_len: usize,
        answer: *mut u8,
        answer_len: usize,
    ) -> u32;
    pub fn fdfa_pass_start(answer: *mut u8, answer_len: usize) -> u32;
    pub fn fdfa_pass_on(
        sheet: *const u8,
        sheet_len: usize,
        failed: usize,
        state: usize,
        position: usize,
        piece: *const u8,
        piece_len: usize,
        answer: *mut u8,
        answer_len: usize,
    ) -> u32;
    pub fn fdfa_number_read(text: *const u8, text_len: usize, place: usize, answer: *mut u8, answer_len: usize) -> u32;
    pub fn fdfa_sheet_read(
        text: *const u8,
        text_len: usize,
        out: *mut u8,
        out_len: usize,
        seconds: *mut u16,
        seconds_len: usize,
        answer: *mut u8,
        answer_len: usize,
    ) -> u32;
    pub fn fdfa_sheet_write(
        level: usize,
        sheet: *const u8,
        sheet_len: usize,
        seconds: *const u16,
        seconds_len: usize,
        out: *mut u8,
        out_len: usize,
        answer: *mut u8,
        answer_len: usize,
    ) -> u32;
    pub fn fdfa_show_read(
        text: *const u8,
        text_len: usize,
        prefix: *mut u8,
        prefix_len: usize,
        period: *mut u8,
        period_len: usize,
        answer: *mut u8,
        answer_len: usize,
    ) -> u32;
    pub fn fdfa_show_write(
        prefix: *const u8,
        prefix_len: usize,
        period: *const u8,
        period_len: usize,
        out: *mut u8,
        out_len: usize,
        answer: *mut u8,
        answer_len: usize,
    ) -> u32;
    pub fn fdfa_import(
        text: *const u8,
        text_len: usize,
        out: *mut u8,
        out_len: usize,
        answer: *mut u8,
        answer_len: usize,
    ) -> u32;
    pub fn fdfa_durations(
        prefix: *const u8,
        prefix_len: usize,
        period: *const u8,
        period_len: usize,
        seconds: *const u16,
        seconds_len: usize,
        out: *mut u8,
        out_len: usize,
        answer: *mut u8,
        answer_len: usize,
    ) -> u32;
    pub fn fdfa_cart(
        sheet: *const u8,
        sheet_len: usize,
        cart: *const u8,
        cart_len: usize,
        out: *mut u8,
        out_len: usize,
        answer: *mut u8,
        answer_len: usize,
    ) -> u32;
}
