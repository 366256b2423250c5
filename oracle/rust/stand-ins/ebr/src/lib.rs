//! Stand-in for the crate `ebr`.
//!
//! The real crate drops a deferred value once no reader of an earlier epoch is left, at a time that nobody chooses.
//! Assumed here: any such time is allowed. So a value deferred is dropped when `manually_advance_epoch` is called and
//! at no other time, oldest first. Document 01's pending state is what lies between.

use std::marker::PhantomData;
use std::sync::{Arc, Mutex};

pub struct Ebr<T, const SLOTS: usize, const BUFFER: usize> {
    deferred: Arc<Mutex<Vec<T>>>,
}

impl<T, const SLOTS: usize, const BUFFER: usize> Default for Ebr<T, SLOTS, BUFFER> {
    fn default() -> Self {
        Ebr { deferred: Arc::new(Mutex::new(Vec::new())) }
    }
}

impl<T, const SLOTS: usize, const BUFFER: usize> Clone for Ebr<T, SLOTS, BUFFER> {
    fn clone(&self) -> Self {
        Ebr { deferred: self.deferred.clone() }
    }
}

impl<T, const SLOTS: usize, const BUFFER: usize> Ebr<T, SLOTS, BUFFER> {
    pub fn pin(&self) -> Guard<'_, T, SLOTS, BUFFER> {
        Guard { deferred: self.deferred.clone(), lifetime: PhantomData }
    }

    pub fn manually_advance_epoch(&self) {
        let values = std::mem::take(&mut *self.deferred.lock().unwrap());
        values.into_iter().for_each(drop);
    }

    /// For the driver's `dump`; the real crate shows nothing of the kind.
    pub fn for_each_deferred(&self, see: impl FnMut(&T)) {
        self.deferred.lock().unwrap().iter().for_each(see);
    }
}

pub struct Guard<'a, T, const SLOTS: usize, const BUFFER: usize> {
    deferred: Arc<Mutex<Vec<T>>>,
    lifetime: PhantomData<&'a ()>,
}

impl<T, const SLOTS: usize, const BUFFER: usize> Guard<'_, T, SLOTS, BUFFER> {
    pub fn defer_drop(&mut self, value: T) {
        self.deferred.lock().unwrap().push(value);
    }
}
