//! A call on a thread whose stack is exactly so many bytes, with an inaccessible page before it; and how many of them it used.
//!
//! The C library keeps some of those bytes for the thread itself.

use crate::guarded::{Placement, Region};
use std::ffi::c_void;
use std::ptr;

/// What an unused byte of the stack holds.
const UNUSED: u8 = 0x5a;

extern "C" {
    fn pthread_attr_init(attributes: *mut Attributes) -> i32;
    fn pthread_attr_setstack(attributes: *mut Attributes, lowest: *mut u8, size: usize) -> i32;
    fn pthread_attr_destroy(attributes: *mut Attributes) -> i32;
    fn pthread_create(
        thread: *mut usize,
        attributes: *const Attributes,
        run: extern "C" fn(*mut c_void) -> *mut c_void,
        given: *mut c_void,
    ) -> i32;
    fn pthread_join(thread: usize, returned: *mut *mut c_void) -> i32;
}

/// `pthread_attr_t` of Linux on x86-64.
#[repr(C)]
struct Attributes([u64; 7]);

pub struct Stack(Region);

impl Stack {
    /// Of whole pages, at least 16 KiB.
    pub fn new(bytes: usize) -> Self {
        let mut memory = Region::new(bytes);
        memory.lend(&vec![UNUSED; bytes], Placement::Start);
        Stack(memory)
    }

    /// Calls it there, and answers how many bytes were used, the thread's own among them.
    pub fn run(&mut self, call: &mut dyn FnMut()) -> usize {
        extern "C" fn start(call: *mut c_void) -> *mut c_void {
            // What `run` points to, which waits until this thread has ended.
            unsafe { (*call.cast::<&mut dyn FnMut()>())() };
            ptr::null_mut()
        }
        let stack = self.0.lent_mut();
        stack.fill(UNUSED);
        let mut call = call;
        let mut attributes = Attributes([0; 7]);
        let mut thread = 0;
        // The stack is this thread's alone until it is joined.
        unsafe {
            let given = (&raw mut call).cast();
            assert_eq!(pthread_attr_init(&mut attributes), 0);
            assert_eq!(pthread_attr_setstack(&mut attributes, stack.as_mut_ptr(), stack.len()), 0, "such a stack");
            assert_eq!(pthread_create(&mut thread, &attributes, start, given), 0);
            assert_eq!(pthread_join(thread, ptr::null_mut()), 0);
            pthread_attr_destroy(&mut attributes);
        }
        let stack = self.0.lent_mut();
        stack.len() - stack.iter().position(|&byte| byte != UNUSED).unwrap_or(stack.len())
    }
}

#[cfg(test)]
mod tests {
    use super::*;
    use std::hint::black_box;

    #[test]
    fn what_is_used_is_counted() {
        let mut stack = Stack::new(1 << 16);
        let least = stack.run(&mut || {});
        let more = stack.run(&mut || {
            black_box([7_u8; 30_000]);
        });
        // What the thread does for itself is below or beside the call.
        assert!(least < 16 << 10 && (28_000..32_000).contains(&(more - least)), "{least} {more}");
    }
}
