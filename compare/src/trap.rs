//! Says which call trapped. A trap ends the process, so it is said from the signal's handler.
use std::cell::Cell;
use std::fmt::Write;
use std::sync::atomic::{AtomicU64, Ordering};

/// How many calls were compared so far, and how many of them differ.
pub static CALLS: AtomicU64 = AtomicU64::new(0);
pub static DIFFER: AtomicU64 = AtomicU64::new(0);

thread_local! {
    /// The family, the seed and the number of what this thread is at.
    static AT: Cell<(&'static str, u64, u64)> = const { Cell::new(("", 0, 0)) };
}

/// This thread is about to make that number of the family from the seed.
pub fn at(name: &'static str, seed: u64, number: u64) {
    AT.set((name, seed, number));
}

unsafe extern "C" {
    fn signal(number: i32, handler: extern "C" fn(i32)) -> usize;
    fn write(file: i32, from: *const u8, count: usize) -> isize;
    fn _exit(status: i32) -> !;
}

/// SIGILL, SIGTRAP, SIGABRT, SIGBUS, SIGFPE, SIGSEGV.
const TRAPS: [i32; 6] = [4, 5, 6, 7, 8, 11];

/// From here on, a trap is said and counts as a failure.
pub fn watch() {
    for number in TRAPS {
        // SAFETY: the handler calls nothing but what may be called in one.
        unsafe { signal(number, trapped) };
    }
}

/// A text of fixed room.
struct Text {
    bytes: [u8; 400],
    len: usize,
}

impl Write for Text {
    fn write_str(&mut self, more: &str) -> std::fmt::Result {
        let end = (self.len + more.len()).min(self.bytes.len());
        let count = end - self.len;
        self.bytes[self.len..end].copy_from_slice(&more.as_bytes()[..count]);
        self.len = end;
        Ok(())
    }
}

extern "C" fn trapped(number: i32) {
    let mut text = Text {
        bytes: [0; 400],
        len: 0,
    };
    let (name, seed, made) = AT.get();
    let [calls, differ] = [&CALLS, &DIFFER].map(|n| n.load(Ordering::Relaxed));
    let (passed, failed) = (calls - differ.min(calls), differ + 1);
    let _ = write!(
        text,
        "\n{name}: number {made} of seed {seed} trapped, signal {number}; \
         TRACE=1 compare {name} {} {seed} prints it last\n{passed} passed, {failed} failed\n",
        made + 1
    );
    // SAFETY: the bytes are those of the text.
    unsafe {
        write(1, text.bytes.as_ptr(), text.len);
        _exit(1)
    }
}
