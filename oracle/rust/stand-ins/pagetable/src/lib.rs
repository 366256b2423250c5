//! Stand-in for the crate `pagetable`.
//!
//! Assumed: a table of one `T` for every number, each the default (for an `AtomicU64`, zero) until somebody writes it,
//! and clones that share their contents. Numbers 2^k - 1 to 2^(k+1) - 2 share one allocation, made at first use.

use std::sync::{Arc, OnceLock};

pub struct PageTable<T> {
    runs: Arc<[OnceLock<Box<[T]>>; 64]>,
}

impl<T> Default for PageTable<T> {
    fn default() -> Self {
        PageTable { runs: Arc::new(std::array::from_fn(|_| OnceLock::new())) }
    }
}

impl<T> Clone for PageTable<T> {
    fn clone(&self) -> Self {
        PageTable { runs: self.runs.clone() }
    }
}

impl<T: Default> PageTable<T> {
    pub fn get(&self, number: u64) -> &T {
        let run = (number + 1).ilog2();
        let length = 1_usize << run;
        let entries = self.runs[run as usize].get_or_init(|| (0..length).map(|_| T::default()).collect());
        &entries[number as usize + 1 - length]
    }
}
