//! `fdatasync` and `fsync` that sleep SLOW_SYNC milliseconds before they sync. As a shared library that LD_PRELOAD names, it makes
//! every disk of a program a slow one, from outside.
use std::ffi::{c_char, c_int, c_void};
use std::sync::OnceLock;
use std::thread::sleep;
use std::time::Duration;

/// The next of the loaded libraries behind this one.
const NEXT: *mut c_void = -1isize as *mut c_void;

unsafe extern "C" {
    fn dlsym(handle: *mut c_void, name: *const c_char) -> *mut c_void;
}

/// Sleeps, and calls the function of this name that would have been called.
fn slowly(name: &'static std::ffi::CStr, file: c_int) -> c_int {
    static PAUSE: OnceLock<u64> = OnceLock::new();
    let pause = PAUSE.get_or_init(|| {
        let word = std::env::var("SLOW_SYNC").unwrap_or_default();
        word.parse().unwrap_or(0)
    });
    sleep(Duration::from_millis(*pause));
    // The system's library has both functions, with this type.
    unsafe {
        let next: extern "C" fn(c_int) -> c_int = std::mem::transmute(dlsym(NEXT, name.as_ptr()));
        next(file)
    }
}

#[unsafe(no_mangle)]
pub extern "C" fn fdatasync(file: c_int) -> c_int {
    slowly(c"fdatasync", file)
}

#[unsafe(no_mangle)]
pub extern "C" fn fsync(file: c_int) -> c_int {
    slowly(c"fsync", file)
}
