//! The Rust's panics, caught.

use std::cell::RefCell;
use std::panic::{self, AssertUnwindSafe};

thread_local! {
    static LAST: RefCell<String> = const { RefCell::new(String::new()) };
    static QUIET: RefCell<bool> = const { RefCell::new(false) };
}

/// From now on a panic inside `guarded` is kept and not printed.
pub fn install() {
    let usual = panic::take_hook();
    panic::set_hook(Box::new(move |info| {
        if !QUIET.with_borrow(|q| *q) {
            return usual(info);
        }
        let message = info.payload_as_str().unwrap_or("panic");
        let place = info.location().map_or(String::new(), |l| {
            let file = l.file().rsplit('/').next().unwrap_or("");
            format!("{file}:{}", l.line())
        });
        LAST.set(format!("{place}: {message}"));
    }));
}

/// What `f` answers, or where it panicked and why.
pub fn guarded<T>(f: impl FnOnce() -> T) -> Result<T, String> {
    QUIET.set(true);
    let result = panic::catch_unwind(AssertUnwindSafe(f));
    QUIET.set(false);
    result.map_err(|_| LAST.take())
}
