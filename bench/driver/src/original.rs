//! The Rust's mapper, with the two halves of `write_batch` as the oracle's driver has them: no files, one thread.
use ebr::Ebr;
use std::num::NonZeroU64;

use crate::heap::{probe, UpdateMetadata};
use crate::object_location_mapper::ObjectLocationMapper;
use crate::ours::Batch;
use crate::stand_ins::row;
use crate::{CollectionId, DeferredFree, ObjectId, SlabAddress};

pub struct Original {
    pub mapper: ObjectLocationMapper,
    waiting: Ebr<DeferredFree, 16, 16>,
    kept: Vec<UpdateMetadata>,
}

impl Original {
    pub fn new(rows: &[UpdateMetadata], ratio: f32) -> Original {
        Original { mapper: ObjectLocationMapper::new(rows, ratio), waiting: Ebr::default(), kept: vec![] }
    }

    pub fn rows(ids: &[u64], locations: &[u64]) -> Vec<UpdateMetadata> {
        ids.iter().zip(locations).map(|(id, location)| row(*id, *location)).collect()
    }

    pub fn new_id(&mut self) -> u64 {
        *self.mapper.allocate_object_id()
    }

    pub fn lookup(&mut self, id: u64) -> u64 {
        let address = self.mapper.get_location_for_object(ObjectId::new(id).unwrap());
        address.map_or(0, |address| NonZeroU64::from(address).get())
    }

    pub fn offer(&mut self, batch: &mut Batch) {
        for at in 0..batch.ids.len() {
            if batch.stores[at] != 0 {
                let location = NonZeroU64::from(self.mapper.allocate_slab_slot(probe::class(batch.lengths[at])));
                batch.placed[at] = location.get();
                self.kept.push(row(batch.ids[at], location.get()));
            } else {
                batch.placed[at] = 0;
                let object_id = ObjectId::new(batch.ids[at]).unwrap();
                self.kept.push(UpdateMetadata::Free { object_id, collection_id: CollectionId(0) });
            }
        }
    }

    pub fn commit(&mut self) {
        self.kept.sort_unstable();
        let mut guard = self.waiting.pin();
        for update in self.kept.drain(..) {
            let last = match update {
                UpdateMetadata::Store { object_id, location, .. } => self.mapper.insert(object_id, SlabAddress::from(location)),
                UpdateMetadata::Free { object_id, .. } => {
                    let allocator = self.mapper.clone_object_id_allocator_arc();
                    guard.defer_drop(DeferredFree { allocator, freed_slot: *object_id });
                    self.mapper.remove(object_id)
                }
            };
            if let Some(last) = last {
                let allocator = self.mapper.clone_slab_allocator_arc(last.slab());
                guard.defer_drop(DeferredFree { allocator, freed_slot: last.slot() });
            }
        }
    }

    pub fn release(&mut self) {
        self.waiting.manually_advance_epoch();
    }

    pub fn stats(&mut self) -> [u64; 4] {
        let sums = self.mapper.stats();
        [sums.objects_allocated, sums.objects_freed, sums.heap_slots_allocated, sums.heap_slots_freed]
    }

    /// An object's location, and the line and the tip of its slab where that is not full enough.
    pub fn line(&mut self, id: u64, ratio: f32) -> (u64, Option<(u64, u64)>) {
        let address = self.mapper.get_location_for_object(ObjectId::new(id).unwrap()).unwrap();
        (NonZeroU64::from(address).get(), self.mapper.clone_slab_allocator_arc(address.slab()).fragmentation_cutoff(ratio))
    }

    pub fn defrag(&mut self) -> usize {
        self.mapper.objects_to_defrag().len()
    }
}
