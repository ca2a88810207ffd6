//! What must be seen to before `main`, so that every failure of a stream can be told.
//!
//! Rust opens /dev/null in the place of a closed standard stream before `main`: what is written there is
//! lost without a word, and what is read there is empty. So this looks before that.

use std::sync::atomic::{AtomicBool, Ordering};

static CLOSED: [AtomicBool; 2] = [AtomicBool::new(false), AtomicBool::new(false)];

/// fcntl's request for a descriptor's flags, which fails if it is closed.
const F_GETFD: i32 = 1;

/// The signal of a file that grows past the user's limit, and the handler that ignores a signal.
const SIGXFSZ: i32 = 25;
const SIG_IGN: usize = 1;

extern "C" {
    fn fcntl(descriptor: i32, request: i32, ...) -> i32;
    fn signal(number: i32, handler: usize) -> usize;
}

#[used]
#[cfg_attr(target_os = "linux", link_section = ".init_array")]
static BEFORE_MAIN: extern "C" fn() = look;

extern "C" fn look() {
    for (descriptor, closed) in CLOSED.iter().enumerate() {
        // SAFETY: the request takes no further argument, and changes nothing.
        let flags = unsafe { fcntl(descriptor as i32, F_GETFD) };
        closed.store(flags < 0, Ordering::Relaxed);
    }
    // SAFETY: the signal is only ignored. The write then fails, where the program would have been killed.
    unsafe { signal(SIGXFSZ, SIG_IGN) };
}

pub fn input_was_closed() -> bool {
    CLOSED[0].load(Ordering::Relaxed)
}

pub fn output_was_closed() -> bool {
    CLOSED[1].load(Ordering::Relaxed)
}
