//! A case during which the archive dies, or does not come back within twenty seconds, is told as a
//! difference too. The signal's handler writes what was prepared before the call, and ends the
//! program.

use std::ptr::null_mut;
use std::sync::atomic::{AtomicPtr, AtomicUsize, Ordering::SeqCst};

extern "C" {
    fn signal(number: i32, handler: extern "C" fn(i32)) -> usize;
    fn alarm(seconds: u32) -> u32;
    fn write(file: i32, bytes: *const u8, count: usize) -> isize;
    fn _exit(status: i32) -> !;
}

const PATIENCE: u32 = 20;

/// Linux's numbers of: illegal instruction, trap, abort, bus error, arithmetic, bad memory, alarm.
const SIGNALS: [i32; 7] = [4, 5, 6, 7, 8, 11, 14];

static TEXT: AtomicPtr<u8> = AtomicPtr::new(null_mut());
static LENGTH: AtomicUsize = AtomicUsize::new(0);

extern "C" fn tell_and_end(_: i32) {
    // SAFETY: the text is kept by the one that is being watched; only that thread writes it.
    unsafe {
        write(1, TEXT.load(SeqCst), LENGTH.load(SeqCst));
        _exit(1)
    }
}

/// Begins to watch for signals.
pub fn begin() {
    for number in SIGNALS {
        // SAFETY: the handler has the type that the C library asks for, and calls nothing but what
        // may be called there.
        unsafe { signal(number, tell_and_end) };
    }
}

/// Does what may die; where it does, or takes too long, the text is written.
pub fn over<A>(text: &str, call: impl FnOnce() -> A) -> A {
    TEXT.store(text.as_ptr().cast_mut(), SeqCst);
    LENGTH.store(text.len(), SeqCst);
    // SAFETY: an alarm only raises a signal, which is handled; 0 takes it back.
    unsafe { alarm(PATIENCE) };
    let answer = call();
    unsafe { alarm(0) };
    LENGTH.store(0, SeqCst);
    answer
}
