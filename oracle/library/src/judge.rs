//! What document 01 refuses, read off the Rust's own state and the capacities, which the Rust has not.
use std::collections::HashSet;
use std::sync::Arc;

use ebr::Ebr;

use crate::calls::Call;
use crate::heap::{probe, Heap};
use crate::heap_store::HeapStore;
use crate::id_allocator::probe::free_and_tip;
use crate::mapper_store::MapperStore;
use crate::object_location_mapper::{probe::location, ObjectLocationMapper};
use crate::tables::{Update, MOST_ASKED, MOST_UPDATES, SLABS};
use crate::{Allocator, DeferredFree, Store};

pub const LONGEST_OBJECT: u64 = 17_179_869_172;

/// A store of the Rust's, with its insides.
pub trait Rust: Store {
    fn mapper(&self) -> &ObjectLocationMapper;
    fn waiting(&self) -> &Ebr<DeferredFree, 16, 16>;
    fn is_open(&self) -> bool;
    /// The heap, where there are files.
    fn files(&self) -> Option<&Heap>;
}

impl Rust for MapperStore {
    fn mapper(&self) -> &ObjectLocationMapper {
        &self.mapper
    }

    fn waiting(&self) -> &Ebr<DeferredFree, 16, 16> {
        &self.waiting
    }

    fn is_open(&self) -> bool {
        self.open.is_some()
    }

    fn files(&self) -> Option<&Heap> {
        None
    }
}

impl Rust for HeapStore {
    fn mapper(&self) -> &ObjectLocationMapper {
        probe::table(self.heap())
    }

    fn waiting(&self) -> &Ebr<DeferredFree, 16, 16> {
        probe::waiting(self.heap())
    }

    fn is_open(&self) -> bool {
        false
    }

    fn files(&self) -> Option<&Heap> {
        Some(self.heap())
    }
}

pub struct Judge<'a> {
    pub rust: &'a dyn Rust,
    pub ids: u64,
    pub slots: u64,
    /// Which rows of the call have a key that is too long.
    pub long: &'a [usize],
}

type Refusal = Option<(u64, u64)>;

fn first_of(tests: &[(bool, u64)]) -> Refusal {
    tests.iter().find(|(refused, _)| *refused).map(|(_, number)| (*number, 0))
}

/// Numbers taken, held or pending, and whether 0 is one of them.
fn taken(allocator: &Allocator) -> (u64, bool) {
    let (free, tip) = free_and_tip(allocator);
    (tip - free.len() as u64, tip > 0 && free.first() != Some(&0))
}

impl Judge<'_> {
    pub fn refusal(&self, call: &Call) -> Refusal {
        let open = self.rust.is_open();
        match call {
            Call::NewId => first_of(&[(open, 11), (self.no_id_free(), 10)]),
            Call::Lookup(id) => first_of(&[(!self.is_stored(&self.held(), *id), 8)]),
            Call::Page(ids) => first_of(&[(ids.len() > MOST_ASKED, 15)]),
            Call::Offer(updates) | Call::Batch(updates) => self.refused_batch(open, updates),
            Call::Commit | Call::Abandon => first_of(&[(!open, 12)]),
            Call::Release | Call::Snapshot => first_of(&[(open, 11)]),
            Call::Defrag(bits) | Call::Reason(_, bits) => {
                first_of(&[(open, 11), (!(f32::from_bits(*bits) > 0.0 && f32::from_bits(*bits) <= 1.0), 14)])
            }
            Call::Rebuild(rows) => self.refused_rows(rows),
            _ => None,
        }
    }

    fn no_id_free(&self) -> bool {
        let (taken, zero) = taken(&self.rust.mapper().clone_object_id_allocator_arc());
        taken - u64::from(zero) == self.ids - 1
    }

    /// Whether each id above 0 is held.
    pub fn held(&self) -> Vec<bool> {
        let allocator = self.rust.mapper().clone_object_id_allocator_arc();
        let (free, tip) = free_and_tip(&allocator);
        let mut held: Vec<bool> = (0..self.ids).map(|id| 0 < id && id < tip).collect();
        free.iter().for_each(|id| held[*id as usize] = false);
        self.rust.waiting().for_each_deferred(|deferred| {
            if Arc::ptr_eq(&deferred.allocator, &allocator) {
                held[deferred.freed_slot as usize] = false;
            }
        });
        held
    }

    /// Whether this id, any number, has an object.
    pub fn is_stored(&self, held: &[bool], id: u64) -> bool {
        *held.get(id as usize).unwrap_or(&false) && location(self.rust.mapper(), id) != 0
    }

    /// Id and location of each object, in order.
    pub fn live(&self) -> Vec<(u64, u64)> {
        let held = self.held();
        let located = (1..self.ids).filter(|id| held[*id as usize]).map(|id| (id, location(self.rust.mapper(), id)));
        located.filter(|(_, location)| *location != 0).collect()
    }

    fn refused_batch(&self, open: bool, updates: &[Update]) -> Refusal {
        if open {
            return Some((11, 0));
        }
        if updates.len() > MOST_UPDATES {
            return Some((15, 0));
        }
        let (held, mut seen, mut asked) = (self.held(), HashSet::new(), [0; SLABS]);
        for (index, update) in updates.iter().enumerate() {
            let index = index as u64;
            if !held.get(update.id as usize).unwrap_or(&false) {
                return Some((8, index));
            }
            if !seen.insert(update.id) {
                return Some((9, index));
            }
            if update.store && self.long.contains(&(index as usize)) {
                return Some((21, index));
            }
            if update.store && update.length > LONGEST_OBJECT {
                return Some((2, index));
            }
            if update.store {
                asked[probe::class(update.length) as usize] += 1;
            }
        }
        let full = |slab: &usize| {
            asked[*slab] > 0 && asked[*slab] + taken(&self.rust.mapper().clone_slab_allocator_arc(*slab as u8)).0 > self.slots
        };
        (0..SLABS).find(full).map(|slab| (10, slab as u64))
    }

    fn refused_rows(&self, rows: &[(u64, u64)]) -> Refusal {
        let (mut ids, mut locations) = (HashSet::new(), HashSet::new());
        for (row, (id, location)) in rows.iter().enumerate() {
            let (slab, slot) = (location >> 56, location & ((1 << 56) - 1));
            let tests = [
                (*id == 0 || *id >= self.ids, 8),
                (!ids.insert(*id), 9),
                (slab == 0 || slab > SLABS as u64 || slot >= self.slots, 3),
                (!locations.insert(*location), 16),
                (self.long.contains(&row), 21),
            ];
            if let Some((number, _)) = first_of(&tests) {
                return Some((number, row as u64));
            }
        }
        None
    }

    /// Whether the Rust asserts in a defrag: the quotient says too empty, yet the start is at or past the tip. A listed difference.
    pub fn asserts(&self, ratio: f32) -> bool {
        (0..SLABS).any(|slab| self.asserts_in(slab as u8, ratio))
    }

    fn asserts_in(&self, slab: u8, ratio: f32) -> bool {
        let (free, tip) = free_and_tip(&self.rust.mapper().clone_slab_allocator_arc(slab));
        let live = (tip - free.len() as u64) as f32;
        tip > 0 && ratio > live / tip as f32 && (live / ratio) as u64 >= tip
    }

    /// Whether it does in the slab of this id's object.
    pub fn asserts_for(&self, id: u64, ratio: f32) -> bool {
        self.is_stored(&self.held(), id) && self.asserts_in((location(self.rust.mapper(), id) >> 56) as u8 - 1, ratio)
    }
}
