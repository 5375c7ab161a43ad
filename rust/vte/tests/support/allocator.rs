//! The system's memory, counted or refused, and programs that end without it.

use std::alloc::{GlobalAlloc, Layout, System};
use std::cell::Cell;
use std::panic::Location;
use std::process::{Command, Output};

thread_local! {
    /// The bytes that this thread has asked for.
    static TAKEN: Cell<usize> = const { Cell::new(0) };
    /// Whether this thread is refused memory.
    static IS_REFUSED: Cell<bool> = const { Cell::new(false) };
}

struct Memory;

// SAFETY: each call is the system's, or returns null, which means that there is no memory.
unsafe impl GlobalAlloc for Memory {
    unsafe fn alloc(&self, layout: Layout) -> *mut u8 {
        TAKEN.with(|taken| taken.set(taken.get() + layout.size()));
        if IS_REFUSED.with(Cell::get) {
            return std::ptr::null_mut();
        }
        System.alloc(layout)
    }

    unsafe fn realloc(&self, pointer: *mut u8, layout: Layout, size: usize) -> *mut u8 {
        TAKEN.with(|taken| taken.set(taken.get() + size));
        if IS_REFUSED.with(Cell::get) {
            return std::ptr::null_mut();
        }
        System.realloc(pointer, layout, size)
    }

    unsafe fn dealloc(&self, pointer: *mut u8, layout: Layout) {
        System.dealloc(pointer, layout);
    }
}

#[global_allocator]
static MEMORY: Memory = Memory;

/// Returns an answer, and how many bytes were asked for before it came.
pub fn counted<T>(answer: impl FnOnce() -> T) -> (T, usize) {
    let before = TAKEN.with(Cell::get);
    let answer = answer();
    (answer, TAKEN.with(Cell::get) - before)
}

pub fn refused<T>(answer: impl FnOnce() -> T) -> T {
    IS_REFUSED.with(|is_refused| is_refused.set(true));
    let answer = answer();
    IS_REFUSED.with(|is_refused| is_refused.set(false));
    answer
}

/// Runs the test that has this closure in a program of its own, which of all such closures calls
/// that at this line alone, by this function. Returns what it said, or `None` in that program.
#[track_caller]
fn alone<T, F: FnOnce() -> T>(call: F, by: fn(F) -> T) -> Option<Output> {
    const WHICH: &str = "VTE_TEST_ALONE";
    let line = Location::caller().line().to_string();
    if let Ok(which) = std::env::var(WHICH) {
        if which == line {
            by(call);
        }
        return None;
    }
    // without the crate's name
    let (_, pointer) = std::any::type_name::<F>().split_once("::").unwrap();
    let test = pointer.split("::{{").next().unwrap();
    let output = Command::new(std::env::current_exe().unwrap())
        .args(["--nocapture", "--exact", test])
        .env(WHICH, line)
        .output();
    Some(output.unwrap())
}

/// Checks something that the memory of other tests would change, in a program of its own.
#[cfg(target_os = "linux")]
#[allow(dead_code)]
#[track_caller]
pub fn holds_alone(check: impl FnOnce()) {
    if let Some(output) = alone(check, |check| check()) {
        let counts = String::from_utf8_lossy(&output.stdout);
        let said = String::from_utf8_lossy(&output.stderr);
        assert!(counts.contains("1 passed"), "{said}");
    }
}

/// Returns a line of what Linux says of this program's memory, in bytes.
#[cfg(target_os = "linux")]
#[allow(dead_code)]
pub fn status(name: &str) -> usize {
    let status = std::fs::read_to_string("/proc/self/status").unwrap();
    let line = status.lines().find(|line| line.starts_with(name)).unwrap();
    let kilobytes = line.split_whitespace().nth(1).unwrap();
    kilobytes.parse::<usize>().unwrap() * 1024
}

/// Checks that a call ends the program, another one, if it is refused memory, with this number of
/// bytes in the message.
#[track_caller]
pub fn ends_without<T>(count: usize, call: impl FnOnce() -> T) {
    let output = match alone(call, refused) {
        Some(output) => output,
        None => return,
    };
    let said = String::from_utf8_lossy(&output.stderr);
    assert!(!output.status.success());
    // what follows is said of the end itself, which is refused memory too
    let first = said.lines().find(|line| line.contains("allocation of"));
    let expected = format!("memory allocation of {count} bytes failed");
    assert_eq!(first, Some(&*expected), "{said}");
}
