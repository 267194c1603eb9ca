//! Memory whose every byte beyond a lent slice is known: inaccessible pages before and after it, and canary bytes in between.

use crate::library::{Cell, Cells, CellsMut};
use std::ffi::c_void;
use std::ops::Range;
use std::{mem, ptr, slice};

const PAGE: usize = 4096;
const NO_ACCESS: i32 = 0;
const READ_AND_WRITE: i32 = 3;
const PRIVATE_AND_ANONYMOUS: i32 = 0x22;
/// How far around a lent slice the canaries are compared after each case; `sweep` compares them all.
const NEAR: usize = 128;

extern "C" {
    fn mmap(address: *mut c_void, length: usize, access: i32, flags: i32, file: i32, offset: i64) -> *mut c_void;
    fn mprotect(address: *mut c_void, length: usize, access: i32) -> i32;
    fn munmap(address: *mut c_void, length: usize) -> i32;
}

/// Where a slice is put.
#[derive(Clone, Copy, Debug, PartialEq, Eq)]
pub enum Placement {
    /// The first byte touches the inaccessible page before it.
    Start,
    /// The last byte touches the inaccessible page after it.
    End,
    /// That many canaries before it, less where its cells would not be aligned, and canaries after it.
    Middle(usize),
    /// An empty slice whose pointer is NULL; any other slice goes to the end.
    Null,
    /// An empty slice whose pointer is that of the inaccessible page before the region; any other slice goes to the start.
    Dangling,
}

/// A mapping: an inaccessible page, `capacity` bytes, an inaccessible page.
pub struct Region {
    base: *mut u8,
    capacity: usize,
    lent: Range<usize>,
    pointer: Pointer,
}

enum Pointer {
    Real,
    Null,
    Guard,
    /// Where another region's slice is.
    Other(*const u8),
}

impl Region {
    pub fn new(least: usize) -> Self {
        let capacity = least.next_multiple_of(PAGE);
        // A fresh mapping that nothing else refers to; its middle is made accessible before it is used.
        let base = unsafe {
            let base = mmap(ptr::null_mut(), capacity + 2 * PAGE, NO_ACCESS, PRIVATE_AND_ANONYMOUS, -1, 0) as *mut u8;
            assert!(base as isize != -1, "mmap failed");
            assert!(mprotect(base.add(PAGE).cast(), capacity, READ_AND_WRITE) == 0, "mprotect failed");
            base
        };
        let mut region = Region { base, capacity, lent: 0..0, pointer: Pointer::Real };
        region.set_canaries(0..capacity);
        region
    }

    fn memory(&self) -> &[u8] {
        // The accessible middle of the mapping, which lives as long as the region.
        unsafe { slice::from_raw_parts(self.base.add(PAGE), self.capacity) }
    }

    fn memory_mut(&mut self) -> &mut [u8] {
        // As above, lent exclusively.
        unsafe { slice::from_raw_parts_mut(self.base.add(PAGE), self.capacity) }
    }

    fn set_canaries(&mut self, range: Range<usize>) {
        for at in range {
            self.memory_mut()[at] = canary(at);
        }
    }

    /// Puts a slice there. What was lent before becomes canaries again.
    pub fn lend<T: Cell>(&mut self, contents: &[T], placement: Placement) {
        self.set_canaries(self.lent.clone());
        let contents = bytes_of(contents);
        let spare = self.capacity.checked_sub(contents.len()).expect("the region is large enough");
        let start = match placement {
            Placement::Start | Placement::Dangling => 0,
            Placement::End | Placement::Null => spare,
            Placement::Middle(before) => before.min(spare) / mem::size_of::<T>() * mem::size_of::<T>(),
        };
        self.pointer = match placement {
            Placement::Null if contents.is_empty() => Pointer::Null,
            Placement::Dangling if contents.is_empty() => Pointer::Guard,
            _ => Pointer::Real,
        };
        self.lent = start..start + contents.len();
        self.memory_mut()[start..start + contents.len()].copy_from_slice(contents);
    }

    /// From now on the slice is the other region's, which is as long and is only read.
    pub fn lend_that_of(&mut self, other: *const u8) {
        self.pointer = Pointer::Other(other);
    }

    /// The address of the lent slice's first cell.
    pub fn address(&self) -> *const u8 {
        match self.pointer {
            Pointer::Real => self.memory()[self.lent.clone()].as_ptr(),
            Pointer::Null => ptr::null(),
            Pointer::Guard => self.base,
            Pointer::Other(address) => address,
        }
    }

    pub fn cells<T: Cell>(&self) -> Cells<'_, T> {
        match self.address() {
            address if address.is_null() => Cells::NULL,
            // The lent cells, aligned; or none, and no byte behind the pointer is read.
            address => Cells::from(unsafe { slice::from_raw_parts(address.cast(), self.length::<T>()) }),
        }
    }

    pub fn cells_mut<T: Cell>(&mut self) -> CellsMut<'_, T> {
        let start = match self.pointer {
            Pointer::Real => self.lent_mut().as_mut_ptr(),
            Pointer::Null => return CellsMut::NULL,
            Pointer::Guard => self.base,
            Pointer::Other(_) => unreachable!("what is lent twice is only read"),
        };
        // As above, lent exclusively.
        CellsMut::from(unsafe { slice::from_raw_parts_mut(start.cast(), self.length::<T>()) })
    }

    fn length<T: Cell>(&self) -> usize {
        self.lent.len() / mem::size_of::<T>()
    }

    /// Compares the lent slice with what it should hold, and the canaries near it.
    pub fn verify<T: Cell>(&self, expected: &[T]) -> Result<(), String> {
        let (memory, expected) = (self.memory(), bytes_of(expected));
        let lent = &memory[self.lent.clone()];
        if lent != expected {
            let at = lent.iter().zip(expected).position(|(found, due)| found != due).unwrap_or(0);
            return Err(format!("byte {at} of {} is {}, not {}", lent.len(), lent[at], expected[at]));
        }
        let before = self.lent.start.saturating_sub(NEAR)..self.lent.start;
        let after = self.lent.end..self.capacity.min(self.lent.end + NEAR);
        self.verify_canaries(before)?;
        self.verify_canaries(after)
    }

    fn verify_canaries(&self, range: Range<usize>) -> Result<(), String> {
        let start = range.start;
        match self.memory()[range].iter().enumerate().position(|(at, &byte)| byte != canary(start + at)) {
            Some(at) => {
                let distance = (start + at) as isize - self.lent.start as isize;
                Err(format!("the canary at {distance} from the slice's start was changed"))
            }
            None => Ok(()),
        }
    }

    /// Compares every canary of the region.
    pub fn sweep(&self) -> Result<(), String> {
        self.verify_canaries(0..self.lent.start)?;
        self.verify_canaries(self.lent.end..self.capacity)
    }

    /// Reads one byte, counted from the lent slice's start, be it accessible or not. For the self-test.
    pub fn touch(&self, at: isize) -> u8 {
        // Within the mapping: what is not accessible ends the program.
        assert!((-(PAGE as isize)..(self.capacity + PAGE) as isize).contains(&(self.lent.start as isize + at)));
        unsafe { ptr::read_volatile(self.base.add(PAGE + self.lent.start).offset(at)) }
    }

    /// The lent slice itself. For the self-test.
    pub fn lent_mut(&mut self) -> &mut [u8] {
        let lent = self.lent.clone();
        &mut self.memory_mut()[lent]
    }

    /// Changes one byte, counted from the lent slice's start; answers whether there is such a byte. For the self-test.
    pub fn damage(&mut self, at: isize) -> bool {
        let at = self.lent.start as isize + at;
        let inside = at >= 0 && (at as usize) < self.capacity;
        if inside {
            self.memory_mut()[at as usize] ^= 0x40;
        }
        inside
    }
}

impl Drop for Region {
    fn drop(&mut self) {
        // The whole mapping; nothing lent outlives the region.
        unsafe { munmap(self.base.cast(), self.capacity + 2 * PAGE) };
    }
}

/// The bytes of cells as they are in memory.
fn bytes_of<T: Cell>(cells: &[T]) -> &[u8] {
    // Cells are numbers without padding: each of their bytes may be read.
    unsafe { slice::from_raw_parts(cells.as_ptr().cast(), mem::size_of_val(cells)) }
}

/// The byte that stands at a place that is not lent.
fn canary(at: usize) -> u8 {
    (at.wrapping_mul(37) >> 3) as u8 ^ 0xa5
}

#[cfg(test)]
mod tests {
    use super::*;

    #[test]
    fn a_changed_byte_or_canary_is_found() {
        let mut region = Region::new(2 * PAGE);
        for placement in [Placement::Start, Placement::End, Placement::Middle(100)] {
            region.lend(&[1_u8, 2, 3], placement);
            assert!(region.verify(&[1_u8, 2, 3]).is_ok() && region.sweep().is_ok());
            assert!(region.verify(&[1_u8, 2, 4]).is_err());
            for at in [-1, 1, 3] {
                if region.damage(at) {
                    assert!(region.verify(&[1_u8, 2, 3]).is_err(), "{placement:?} {at}");
                    region.damage(at);
                }
            }
        }
    }
    #[test]
    fn cells_of_many_bytes_are_aligned_and_compared_to_the_byte() {
        let mut region = Region::new(2 * PAGE);
        for placement in [Placement::Start, Placement::End, Placement::Middle(101)] {
            region.lend(&[1_u64, u64::MAX], placement);
            assert_eq!(region.address().align_offset(8), 0);
            assert!(region.verify(&[1, u64::MAX]).is_ok());
            assert!(region.verify(&[1 | 1 << 56, u64::MAX]).is_err());
            region.lend(&[1_u16, 999], placement);
            assert!(region.verify(&[1_u16, 999]).is_ok() && region.damage(3) && region.verify(&[1_u16, 999]).is_err());
        }
    }
}
