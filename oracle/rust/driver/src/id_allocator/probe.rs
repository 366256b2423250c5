//! Private items of id_allocator.rs, handed to the driver as they are.

use super::*;

/// The free numbers below the tip, ascending, and the tip.
pub fn free_and_tip(allocator: &Allocator) -> (Vec<u64>, u64) {
    let state = allocator.free_and_pending.lock().unwrap();
    (state.free_set.iter().copied().collect(), state.next_to_allocate)
}

/// An allocator of this tip with this many free numbers, changed in place: `fragmentation_cutoff` reads only these two.
pub fn set_free_and_tip(allocator: &Allocator, free: u64, tip: u64) {
    let mut state = allocator.free_and_pending.lock().unwrap();
    while (state.free_set.len() as u64) < free {
        let next = state.free_set.len() as u64;
        state.free_set.insert(next);
    }
    while (state.free_set.len() as u64) > free {
        state.free_set.pop_last();
    }
    state.next_to_allocate = tip;
}
