//! What a row of `tools/serving` loads before the C library of a server: it moves the clock of the wall.
//!
//! Each look at that clock shows a moment that is an hour late or an hour early, in turn. All other clocks are right.
#![no_std]

use core::ffi::{c_int, c_long};
use core::panic::PanicInfo;
use core::sync::atomic::{AtomicU64, Ordering};

extern "C" {
    fn syscall(number: c_long, ...) -> c_long;
}

const CLOCK_GETTIME: c_long = 228;
const CLOCK_REALTIME: c_int = 0;
const HOUR: i64 = 3600;

static LOOKS: AtomicU64 = AtomicU64::new(0);

#[repr(C)]
pub struct Moment {
    seconds: i64,
    nanoseconds: i64,
}

#[panic_handler]
fn panic(_: &PanicInfo) -> ! {
    loop {}
}

/// The call of the C library, clock_gettime(2).
///
/// # Safety
/// The moment is one that may be written.
#[no_mangle]
pub unsafe extern "C" fn clock_gettime(clock: c_int, moment: *mut Moment) -> c_int {
    let status = unsafe { syscall(CLOCK_GETTIME, c_long::from(clock), moment) };
    if status == 0 && clock == CLOCK_REALTIME {
        let is_late = LOOKS.fetch_add(1, Ordering::Relaxed) % 2 == 0;
        unsafe { (*moment).seconds += if is_late { -HOUR } else { HOUR } };
    }
    status as c_int
}
