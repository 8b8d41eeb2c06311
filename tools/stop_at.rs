//! Ends a process by a signal that it cannot catch at one of its calls that change something outside: the STOP_AT-th of `pwrite`, `write`, `fdatasync`,
//! `fsync`, `ftruncate` and `send`, from 1 on; before that call is made, or behind it where STOP_AFTER is there. As a shared library that
//! LD_PRELOAD names, it does so from outside.
use std::ffi::{CStr, c_char, c_int, c_void};
use std::sync::OnceLock;
use std::sync::atomic::{AtomicU64, Ordering};

/// The next of the loaded libraries behind this one.
const NEXT: *mut c_void = -1isize as *mut c_void;
const SIGKILL: c_int = 9;

unsafe extern "C" {
    fn dlsym(handle: *mut c_void, name: *const c_char) -> *mut c_void;
    fn getpid() -> c_int;
    fn kill(process: c_int, signal: c_int) -> c_int;
}

/// Whether this is the call, and the process is to end behind it; it ends here where it is to end before.
fn ends_behind() -> bool {
    static AT: OnceLock<u64> = OnceLock::new();
    static MADE: AtomicU64 = AtomicU64::new(0);
    let at = *AT.get_or_init(|| std::env::var("STOP_AT").unwrap_or_default().parse().unwrap_or(0));
    let is_it = MADE.fetch_add(1, Ordering::SeqCst) + 1 == at;
    let is_behind = is_it && std::env::var_os("STOP_AFTER").is_some();
    if is_it && !is_behind {
        end();
    }
    is_behind
}

fn end() -> ! {
    // The signal ends the process, with all of its threads.
    unsafe { kill(getpid(), SIGKILL) };
    loop {
        std::hint::spin_loop();
    }
}

/// The function of this name that would have been called.
fn next(name: &'static CStr) -> *mut c_void {
    // The system's library has all of them.
    unsafe { dlsym(NEXT, name.as_ptr()) }
}

/// Makes a call of the library, with its type, at which the process may end.
macro_rules! stopping {
    ($symbol:ident, $name:literal, ($($argument:ident: $kind:ty),*) -> $answer:ty) => {
        #[unsafe(no_mangle)]
        pub extern "C" fn $symbol($($argument: $kind),*) -> $answer {
            let is_last = ends_behind();
            // The type is that of the system's function.
            let call: extern "C" fn($($kind),*) -> $answer = unsafe { std::mem::transmute(next($name)) };
            let answer = call($($argument),*);
            if is_last {
                end();
            }
            answer
        }
    };
}

stopping!(pwrite, c"pwrite", (file: c_int, bytes: *const c_void, count: usize, at: i64) -> isize);
stopping!(write, c"write", (file: c_int, bytes: *const c_void, count: usize) -> isize);
stopping!(fdatasync, c"fdatasync", (file: c_int) -> c_int);
stopping!(fsync, c"fsync", (file: c_int) -> c_int);
stopping!(ftruncate, c"ftruncate", (file: c_int, size: i64) -> c_int);
stopping!(send, c"send", (socket: c_int, bytes: *const c_void, count: usize, flags: c_int) -> isize);
