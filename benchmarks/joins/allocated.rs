//! Counts the bytes that a program requests from the C library's allocator, and reports the count
//! on standard error after each write to standard output. Built as a library and loaded by
//! LD_PRELOAD (glibc alone).
//!
//! A reallocation counts by the bytes that it adds.

use std::sync::atomic::{AtomicUsize, Ordering::SeqCst};

static ASKED: AtomicUsize = AtomicUsize::new(0);

extern "C" {
    fn __libc_malloc(size: usize) -> *mut u8;
    fn __libc_calloc(count: usize, size: usize) -> *mut u8;
    fn __libc_realloc(place: *mut u8, size: usize) -> *mut u8;
    fn __libc_memalign(align: usize, size: usize) -> *mut u8;
    fn malloc_usable_size(place: *mut u8) -> usize;
    fn __write(file: i32, bytes: *const u8, count: usize) -> isize;
}

#[no_mangle]
pub unsafe extern "C" fn malloc(size: usize) -> *mut u8 {
    ASKED.fetch_add(size, SeqCst);
    __libc_malloc(size)
}

#[no_mangle]
pub unsafe extern "C" fn calloc(count: usize, size: usize) -> *mut u8 {
    ASKED.fetch_add(count.saturating_mul(size), SeqCst);
    __libc_calloc(count, size)
}

#[no_mangle]
pub unsafe extern "C" fn realloc(place: *mut u8, size: usize) -> *mut u8 {
    let held = if place.is_null() { 0 } else { malloc_usable_size(place) };
    ASKED.fetch_add(size.saturating_sub(held), SeqCst);
    __libc_realloc(place, size)
}

#[no_mangle]
pub unsafe extern "C" fn aligned_alloc(align: usize, size: usize) -> *mut u8 {
    ASKED.fetch_add(size, SeqCst);
    __libc_memalign(align, size)
}

/// Writes the digits of a number and a line feed at the end of a buffer. Returns the index where
/// they start.
fn digits(mut number: usize, buffer: &mut [u8; 24]) -> usize {
    let mut start = 23;
    buffer[start] = b'\n';
    loop {
        start -= 1;
        buffer[start] = b'0' + (number % 10) as u8;
        number /= 10;
        if number == 0 {
            return start;
        }
    }
}

#[no_mangle]
pub unsafe extern "C" fn write(file: i32, bytes: *const u8, count: usize) -> isize {
    let written = __write(file, bytes, count);
    if file == 1 {
        let mut buffer = [0; 24];
        let start = digits(ASKED.load(SeqCst), &mut buffer);
        __write(2, buffer.as_ptr().add(start), 24 - start);
    }
    written
}
