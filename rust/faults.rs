//! Faults of standard input and output, put into a program by LD_PRELOAD; the variable FAULT names one.
use std::env;
use std::ffi::{c_int, c_long, c_void};
use std::sync::atomic::{AtomicUsize, Ordering};

extern "C" {
    fn syscall(number: c_long, ...) -> isize;
    fn __errno_location() -> *mut c_int;
}

const READ: c_long = 0;
const WRITE: c_long = 1;
const EINTR: c_int = 4;
const EIO: c_int = 5;

// Calls so far of standard input and of standard output.
static CALLS: [AtomicUsize; 2] = [AtomicUsize::new(0), AtomicUsize::new(0)];

enum Fate {
    Fails(c_int),
    MovesAtMost(usize),
}

fn fate(file: c_int) -> Fate {
    if file > 1 {
        return Fate::MovesAtMost(usize::MAX);
    }
    let call = CALLS[file as usize].fetch_add(1, Ordering::Relaxed);
    match (env::var("FAULT").as_deref(), file, call) {
        (Ok("interrupted"), _, _) if call % 3 < 2 => Fate::Fails(EINTR),
        (Ok("input-always-interrupted"), 0, _) => Fate::Fails(EINTR),
        (Ok("output-always-interrupted"), 1, _) => Fate::Fails(EINTR),
        (Ok("short"), _, _) => Fate::MovesAtMost(1),
        (Ok("input-cut"), 0, 0) | (Ok("output-cut"), 1, 0) => Fate::MovesAtMost(20),
        (Ok("input-cut"), 0, _) | (Ok("output-cut"), 1, _) => Fate::Fails(EIO),
        _ => Fate::MovesAtMost(usize::MAX),
    }
}

fn call(number: c_long, file: c_int, bytes: *const c_void, n: usize) -> isize {
    match fate(file) {
        Fate::Fails(error) => {
            unsafe { *__errno_location() = error };
            -1
        }
        Fate::MovesAtMost(most) => unsafe { syscall(number, file, bytes, n.min(most)) },
    }
}

#[no_mangle]
pub extern "C" fn read(file: c_int, bytes: *mut c_void, n: usize) -> isize {
    call(READ, file, bytes, n)
}

#[no_mangle]
pub extern "C" fn write(file: c_int, bytes: *const c_void, n: usize) -> isize {
    call(WRITE, file, bytes, n)
}
