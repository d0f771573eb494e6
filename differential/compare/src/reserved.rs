//! Slices of more places than memory has room for: a page that nothing has touched takes none.

use std::ffi::c_void;
use std::ptr::null_mut;

/// Linux's mmap(2), with its constants on x86-64 and ARM.
const READ_AND_WRITE: i32 = 1 | 2;
const PRIVATE: i32 = 2;
const ANONYMOUS: i32 = 0x20;
const NO_RESERVE: i32 = 0x4000;

unsafe extern "C" {
    fn mmap(
        at: *mut c_void,
        bytes: usize,
        may: i32,
        flags: i32,
        file: i32,
        from: i64,
    ) -> *mut c_void;
    fn munmap(at: *mut c_void, bytes: usize) -> i32;
}

/// So many places that hold zeros. `T` is a number whose zero has no digit set.
pub struct Reserved<T> {
    first: *mut T,
    length: usize,
}

impl Reserved<u32> {
    pub fn words(length: usize) -> Option<Self> {
        Reserved::new(length)
    }
}

impl Reserved<f32> {
    pub fn floats(length: usize) -> Option<Self> {
        Reserved::new(length)
    }
}

impl<T> Reserved<T> {
    /// None where so many addresses aren't to be had.
    fn new(length: usize) -> Option<Self> {
        let flags = PRIVATE | ANONYMOUS | NO_RESERVE;
        // SAFETY: a new mapping, at a place that the kernel chooses.
        let at = unsafe {
            mmap(
                null_mut(),
                size_of::<T>() * length,
                READ_AND_WRITE,
                flags,
                -1,
                0,
            )
        };
        // The failed call gives -1.
        (at as isize != -1).then_some(Reserved {
            first: at.cast(),
            length,
        })
    }

    pub fn places(&mut self) -> &mut [T] {
        // SAFETY: the mapping has these places, on a page's bound; they may be read and written, and
        // nothing else points at them.
        unsafe { std::slice::from_raw_parts_mut(self.first, self.length) }
    }
}

impl<T> Drop for Reserved<T> {
    fn drop(&mut self) {
        // SAFETY: the mapping as it was made. It ends with its only owner.
        unsafe { munmap(self.first.cast(), size_of::<T>() * self.length) };
    }
}
