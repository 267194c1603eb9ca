//! The static library's calls, as include/fdfa.h has them, on slices in the place of pointers and lengths. Each answers what is returned.

mod declared;

use std::marker::PhantomData;
use std::ptr;

/// What a slice is of: any value of so many bits is one.
pub trait Cell: Copy {}

impl Cell for u8 {}
impl Cell for u16 {}
impl Cell for u64 {}

/// A slice that a call reads, as C passes it: an empty one may have any pointer.
#[derive(Clone, Copy)]
pub struct Cells<'a, T = u8>(*const T, usize, PhantomData<&'a [T]>);

/// A slice that a call may write.
pub struct CellsMut<'a, T = u8>(*mut T, usize, PhantomData<&'a mut [T]>);

impl<T> Cells<'_, T> {
    pub const NULL: Self = Cells(ptr::null(), 0, PhantomData);
}

impl<T> CellsMut<'_, T> {
    pub const NULL: Self = CellsMut(ptr::null_mut(), 0, PhantomData);
}

impl<'a, T: Cell> From<&'a [T]> for Cells<'a, T> {
    fn from(slice: &'a [T]) -> Self {
        Cells(slice.as_ptr(), slice.len(), PhantomData)
    }
}

impl<'a, T: Cell> From<&'a Vec<T>> for Cells<'a, T> {
    fn from(slice: &'a Vec<T>) -> Self {
        slice.as_slice().into()
    }
}

impl<'a, T: Cell> From<&'a mut [T]> for CellsMut<'a, T> {
    fn from(slice: &'a mut [T]) -> Self {
        CellsMut(slice.as_mut_ptr(), slice.len(), PhantomData)
    }
}

impl<'a, T: Cell> From<&'a mut Vec<T>> for CellsMut<'a, T> {
    fn from(slice: &'a mut Vec<T>) -> Self {
        slice.as_mut_slice().into()
    }
}

// In each call the slices are alive, and one that is written overlaps no other since it is lent exclusively.

pub fn verdict(sheet: Cells, prefix: Cells, period: Cells, answer: CellsMut) -> u32 {
    unsafe { declared::fdfa_verdict(sheet.0, sheet.1, prefix.0, prefix.1, period.0, period.1, answer.0, answer.1) }
}

pub fn compare(first: Cells, second: Cells, prefix: CellsMut, period: CellsMut, answer: CellsMut) -> u32 {
    unsafe {
        declared::fdfa_compare(
            first.0, first.1, second.0, second.1, prefix.0, prefix.1, period.0, period.1, answer.0, answer.1,
        )
    }
}

pub fn check(sheet: Cells, answer: CellsMut) -> u32 {
    unsafe { declared::fdfa_check(sheet.0, sheet.1, answer.0, answer.1) }
}

pub fn complement(sheet: Cells, out: CellsMut, answer: CellsMut) -> u32 {
    unsafe { declared::fdfa_complement(sheet.0, sheet.1, out.0, out.1, answer.0, answer.1) }
}

pub fn intersection(first: Cells, second: Cells, out: CellsMut, answer: CellsMut) -> u32 {
    unsafe { declared::fdfa_intersection(first.0, first.1, second.0, second.1, out.0, out.1, answer.0, answer.1) }
}

pub fn union(first: Cells, second: Cells, out: CellsMut, answer: CellsMut) -> u32 {
    unsafe { declared::fdfa_union(first.0, first.1, second.0, second.1, out.0, out.1, answer.0, answer.1) }
}

pub fn compare_in(
    first: Cells,
    second: Cells,
    prefix: CellsMut,
    period: CellsMut,
    work: CellsMut<u64>,
    answer: CellsMut,
) -> u32 {
    unsafe {
        declared::fdfa_compare_in(
            first.0, first.1, second.0, second.1, prefix.0, prefix.1, period.0, period.1, work.0, work.1, answer.0,
            answer.1,
        )
    }
}

pub fn emptiness(sheet: Cells, prefix: CellsMut, period: CellsMut, work: CellsMut<u64>, answer: CellsMut) -> u32 {
    unsafe {
        declared::fdfa_emptiness(
            sheet.0, sheet.1, prefix.0, prefix.1, period.0, period.1, work.0, work.1, answer.0, answer.1,
        )
    }
}

pub fn cursor_start(prefix: Cells, answer: CellsMut) -> u32 {
    unsafe { declared::fdfa_cursor_start(prefix.0, prefix.1, answer.0, answer.1) }
}

pub fn cursor_step(part: usize, position: usize, prefix: Cells, period: Cells, answer: CellsMut) -> u32 {
    unsafe { declared::fdfa_cursor_step(part, position, prefix.0, prefix.1, period.0, period.1, answer.0, answer.1) }
}

pub fn cursor_rest(part: usize, position: usize, prefix: Cells, period: Cells, answer: CellsMut) -> u32 {
    unsafe { declared::fdfa_cursor_rest(part, position, prefix.0, prefix.1, period.0, period.1, answer.0, answer.1) }
}

pub fn pass_start(answer: CellsMut) -> u32 {
    unsafe { declared::fdfa_pass_start(answer.0, answer.1) }
}

pub fn pass_on(sheet: Cells, failed: usize, state: usize, position: usize, part: Cells, answer: CellsMut) -> u32 {
    unsafe { declared::fdfa_pass_on(sheet.0, sheet.1, failed, state, position, part.0, part.1, answer.0, answer.1) }
}

pub fn number_read(text: Cells, place: usize, answer: CellsMut) -> u32 {
    unsafe { declared::fdfa_number_read(text.0, text.1, place, answer.0, answer.1) }
}

pub fn sheet_read(text: Cells, out: CellsMut, seconds: CellsMut<u16>, answer: CellsMut) -> u32 {
    unsafe { declared::fdfa_sheet_read(text.0, text.1, out.0, out.1, seconds.0, seconds.1, answer.0, answer.1) }
}

pub fn sheet_write(level: usize, sheet: Cells, seconds: Cells<u16>, out: CellsMut, answer: CellsMut) -> u32 {
    unsafe {
        declared::fdfa_sheet_write(level, sheet.0, sheet.1, seconds.0, seconds.1, out.0, out.1, answer.0, answer.1)
    }
}

pub fn show_read(text: Cells, prefix: CellsMut, period: CellsMut, answer: CellsMut) -> u32 {
    unsafe { declared::fdfa_show_read(text.0, text.1, prefix.0, prefix.1, period.0, period.1, answer.0, answer.1) }
}

pub fn show_write(prefix: Cells, period: Cells, out: CellsMut, answer: CellsMut) -> u32 {
    unsafe { declared::fdfa_show_write(prefix.0, prefix.1, period.0, period.1, out.0, out.1, answer.0, answer.1) }
}

pub fn import(text: Cells, out: CellsMut, answer: CellsMut) -> u32 {
    unsafe { declared::fdfa_import(text.0, text.1, out.0, out.1, answer.0, answer.1) }
}

pub fn durations(prefix: Cells, period: Cells, seconds: Cells<u16>, out: CellsMut, answer: CellsMut) -> u32 {
    unsafe {
        declared::fdfa_durations(
            prefix.0, prefix.1, period.0, period.1, seconds.0, seconds.1, out.0, out.1, answer.0, answer.1,
        )
    }
}

pub fn cart(sheet: Cells, cart: Cells, out: CellsMut, answer: CellsMut) -> u32 {
    unsafe { declared::fdfa_cart(sheet.0, sheet.1, cart.0, cart.1, out.0, out.1, answer.0, answer.1) }
}
