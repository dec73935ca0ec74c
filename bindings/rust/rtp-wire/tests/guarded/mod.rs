//! Memory that ends where a page begins that may not be touched: who reads or writes one byte more is killed.

use std::ffi::c_void;
use std::mem::{align_of, size_of_val};
use std::ptr::null_mut;
use std::slice::from_raw_parts_mut;

extern "C" {
    fn mmap(
        at: *mut c_void,
        len: usize,
        access: i32,
        flags: i32,
        file: i32,
        offset: i64,
    ) -> *mut c_void;
    fn mprotect(at: *mut c_void, len: usize, access: i32) -> i32;
}

const NO_ACCESS: i32 = 0;
const READ_AND_WRITE: i32 = 3;
const PRIVATE_AND_ANONYMOUS: i32 = 0x22;
const PAGE: usize = 65_536; // a multiple of each page size that is in use

/// A copy of these values that ends at such a page; the page before it may not be touched either.
pub fn at_end<T: Copy>(values: &[T]) -> &'static mut [T] {
    let bytes = size_of_val(values);
    let room = bytes.div_ceil(PAGE) * PAGE;
    assert!(bytes % align_of::<T>() == 0);
    // SAFETY: the pages are new, nothing else refers to them, and they are never given back.
    unsafe {
        let all = mmap(
            null_mut(),
            room + 2 * PAGE,
            NO_ACCESS,
            PRIVATE_AND_ANONYMOUS,
            -1,
            0,
        );
        assert!(all as isize != -1, "no memory");
        let begin = all.byte_add(PAGE);
        assert!(room == 0 || mprotect(begin, room, READ_AND_WRITE) == 0);
        let block: *mut T = begin.byte_add(room - bytes).cast();
        block.copy_from_nonoverlapping(values.as_ptr(), values.len());
        from_raw_parts_mut(block, values.len())
    }
}
