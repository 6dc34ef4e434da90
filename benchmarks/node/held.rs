//! Reports on standard error, after each write to standard output, the bytes that the program holds
//! from the C library's allocator and its number of resident pages. Built as a library and loaded
//! by LD_PRELOAD (glibc alone).

use std::sync::atomic::{AtomicUsize, Ordering::SeqCst};

static HELD: AtomicUsize = AtomicUsize::new(0);

extern "C" {
    fn __libc_malloc(size: usize) -> *mut u8;
    fn __libc_calloc(count: usize, size: usize) -> *mut u8;
    fn __libc_realloc(place: *mut u8, size: usize) -> *mut u8;
    fn __libc_memalign(align: usize, size: usize) -> *mut u8;
    fn __libc_free(place: *mut u8);
    fn malloc_usable_size(place: *mut u8) -> usize;
    fn __write(file: i32, bytes: *const u8, count: usize) -> isize;
}

unsafe fn size_of(place: *mut u8) -> usize {
    if place.is_null() { 0 } else { malloc_usable_size(place) }
}

unsafe fn taken(place: *mut u8) -> *mut u8 {
    HELD.fetch_add(size_of(place), SeqCst);
    place
}

#[no_mangle]
pub unsafe extern "C" fn malloc(size: usize) -> *mut u8 {
    taken(__libc_malloc(size))
}

#[no_mangle]
pub unsafe extern "C" fn calloc(count: usize, size: usize) -> *mut u8 {
    taken(__libc_calloc(count, size))
}

#[no_mangle]
pub unsafe extern "C" fn aligned_alloc(align: usize, size: usize) -> *mut u8 {
    taken(__libc_memalign(align, size))
}

#[no_mangle]
pub unsafe extern "C" fn realloc(place: *mut u8, size: usize) -> *mut u8 {
    let held = size_of(place);
    let grown = __libc_realloc(place, size);
    if !grown.is_null() {
        HELD.fetch_sub(held, SeqCst);
    }
    taken(grown)
}

#[no_mangle]
pub unsafe extern "C" fn free(place: *mut u8) {
    HELD.fetch_sub(size_of(place), SeqCst);
    __libc_free(place);
}

#[no_mangle]
pub unsafe extern "C" fn write(file: i32, bytes: *const u8, count: usize) -> isize {
    let written = __write(file, bytes, count);
    if file == 1 {
        let held = HELD.load(SeqCst);
        let pages = std::fs::read_to_string("/proc/self/statm").unwrap_or_default();
        eprintln!("{held} bytes held, {} pages resident", pages.split(' ').nth(1).unwrap_or("?"));
    }
    written
}
