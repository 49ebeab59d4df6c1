//! What `tools/shortages` loads before the C library of a program: it refuses one of the program's allocations.
//!
//! `REFUSED=N` in the environment is the number of that allocation, counted from 1 behind the start of the process, over all threads;
//! without it none is refused. Once it is refused, one octet is written to the open file of the number `REFUSED_TOLD`.
#![no_std]

use core::ffi::{c_char, c_int, c_void};
use core::panic::PanicInfo;
use core::ptr;
use core::sync::atomic::{AtomicBool, AtomicI32, AtomicU64, Ordering};

extern "C" {
    fn __libc_malloc(size: usize) -> *mut c_void;
    fn __libc_calloc(count: usize, size: usize) -> *mut c_void;
    fn __libc_realloc(old: *mut c_void, size: usize) -> *mut c_void;
    fn __libc_memalign(align: usize, size: usize) -> *mut c_void;
    fn __errno_location() -> *mut c_int;
    fn getenv(name: *const c_char) -> *const c_char;
    fn write(file: c_int, octets: *const c_void, count: usize) -> isize;
}

const OUT_OF_MEMORY: c_int = 12;

static HAS_BEGUN: AtomicBool = AtomicBool::new(false);
static MADE: AtomicU64 = AtomicU64::new(0);
static REFUSED: AtomicU64 = AtomicU64::new(0);
static TOLD: AtomicI32 = AtomicI32::new(-1);

fn number(name: &core::ffi::CStr) -> u64 {
    let mut found = 0u64;
    let mut at = unsafe { getenv(name.as_ptr()) };
    while !at.is_null() {
        let octet = unsafe { *at } as u8;
        if !octet.is_ascii_digit() {
            break;
        }
        found = found.wrapping_mul(10).wrapping_add(u64::from(octet - b'0'));
        at = unsafe { at.add(1) };
    }
    found
}

extern "C" fn begin() {
    REFUSED.store(number(c"REFUSED"), Ordering::SeqCst);
    TOLD.store(number(c"REFUSED_TOLD") as i32, Ordering::SeqCst);
    HAS_BEGUN.store(true, Ordering::SeqCst);
}

#[used]
#[link_section = ".init_array"]
static BEGIN: extern "C" fn() = begin;

// Counts an allocation, and tells whether it is to be refused.
fn is_refused() -> bool {
    if !HAS_BEGUN.load(Ordering::SeqCst) || MADE.fetch_add(1, Ordering::SeqCst) + 1 != REFUSED.load(Ordering::SeqCst) {
        return false;
    }
    unsafe {
        write(TOLD.load(Ordering::SeqCst), b"r".as_ptr().cast(), 1);
        *__errno_location() = OUT_OF_MEMORY;
    }
    true
}

#[no_mangle]
pub unsafe extern "C" fn malloc(size: usize) -> *mut c_void {
    if is_refused() { ptr::null_mut() } else { __libc_malloc(size) }
}

#[no_mangle]
pub unsafe extern "C" fn calloc(count: usize, size: usize) -> *mut c_void {
    if is_refused() { ptr::null_mut() } else { __libc_calloc(count, size) }
}

#[no_mangle]
pub unsafe extern "C" fn realloc(old: *mut c_void, size: usize) -> *mut c_void {
    if is_refused() { ptr::null_mut() } else { __libc_realloc(old, size) }
}

#[no_mangle]
pub unsafe extern "C" fn aligned_alloc(align: usize, size: usize) -> *mut c_void {
    if is_refused() { ptr::null_mut() } else { __libc_memalign(align, size) }
}

#[no_mangle]
pub unsafe extern "C" fn memalign(align: usize, size: usize) -> *mut c_void {
    aligned_alloc(align, size)
}

#[no_mangle]
pub unsafe extern "C" fn posix_memalign(made: *mut *mut c_void, align: usize, size: usize) -> c_int {
    let found = aligned_alloc(align, size);
    if found.is_null() {
        return OUT_OF_MEMORY;
    }
    *made = found;
    0
}

#[panic_handler]
fn stop(_: &PanicInfo) -> ! {
    loop {}
}
