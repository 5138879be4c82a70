//! The published Rust's answer, without what it prints.
//!
//! It warns of repeated nodes on standard error; document 01 has a count in the warning's place.

use std::fs::OpenOptions;
use std::os::fd::AsRawFd;
use std::panic::{AssertUnwindSafe, catch_unwind};
use std::sync::{Mutex, MutexGuard, PoisonError};

const STANDARD_ERROR: i32 = 2;

unsafe extern "C" {
    fn dup(file: i32) -> i32;
    fn dup2(file: i32, at: i32) -> i32;
    fn close(file: i32) -> i32;
}

/// What the Rust answers. A panic is an error like those that it reports.
pub fn by_the_rust<T>(work: impl FnOnce() -> Result<T, String>) -> Result<T, String> {
    let silence = Silence::begin();
    let answer = catch_unwind(AssertUnwindSafe(work));
    drop(silence);
    answer.unwrap_or_else(|_| Err("it panics".into()))
}

/// While it lives, what is written to standard error is lost. There is one at a time, since there is one standard
/// error.
struct Silence {
    before: i32,
    _alone: MutexGuard<'static, ()>,
}

static ALONE: Mutex<()> = Mutex::new(());

impl Silence {
    fn begin() -> Silence {
        let _alone = ALONE.lock().unwrap_or_else(PoisonError::into_inner);
        let nowhere = OpenOptions::new().write(true).open("/dev/null").expect("/dev/null can be written");
        // Both calls are given open files, and the number that `dup` hands back is closed once, in `drop`.
        unsafe {
            let before = dup(STANDARD_ERROR);
            dup2(nowhere.as_raw_fd(), STANDARD_ERROR);
            Silence { before, _alone }
        }
    }
}

impl Drop for Silence {
    fn drop(&mut self) {
        unsafe {
            dup2(self.before, STANDARD_ERROR);
            close(self.before);
        }
    }
}
