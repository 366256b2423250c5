//! Stand-in for the crate `fault-injection`.
//!
//! Assumed: `maybe!` gives its argument's result, or an error of its own in the argument's stead if a countdown set by a
//! test reaches it; `fallible!` is that with an early return; `annotate!` only adds words to an error. Here it adds none.

use std::sync::atomic::{AtomicU64, Ordering};

/// The number of `maybe!`s until one fails; 0 for never.
pub static FAULT_INJECT_COUNTER: AtomicU64 = AtomicU64::new(0);

pub fn fails_now() -> bool {
    let step = |left: u64| left.checked_sub(1);
    FAULT_INJECT_COUNTER.fetch_update(Ordering::SeqCst, Ordering::SeqCst, step) == Ok(1)
}

#[macro_export]
macro_rules! maybe {
    ($result:expr) => {
        if $crate::fails_now() {
            Err(::std::io::Error::new(::std::io::ErrorKind::Other, "injected fault"))
        } else {
            $result
        }
    };
}

#[macro_export]
macro_rules! fallible {
    ($result:expr) => {
        match $crate::maybe!($result) {
            Ok(value) => value,
            Err(error) => return Err(error.into()),
        }
    };
}

#[macro_export]
macro_rules! annotate {
    ($error:expr) => {
        $error
    };
}
