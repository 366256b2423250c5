//! The mapper alone: `write_batch` taken apart into offer, commit and abandon, with the mapper's own calls, no files.

use ebr::Ebr;
use std::num::NonZeroU64;

use crate::heap::{probe, UpdateMetadata};
use crate::object_location_mapper::ObjectLocationMapper;
use crate::words::{Asked, Words};
use crate::{dump, stand_ins, CollectionId, DeferredFree, SlabAddress, Store};

pub struct MapperStore {
    pub mapper: ObjectLocationMapper,
    pub waiting: Ebr<DeferredFree, 16, 16>,
    pub open: Option<Vec<UpdateMetadata>>,
}

impl MapperStore {
    pub fn new() -> MapperStore {
        MapperStore { mapper: ObjectLocationMapper::new(&[], 0.5), waiting: Ebr::default(), open: None }
    }

    /// The first half of `write_batch`: the closure that it maps over the batch, without the write.
    fn offer(&mut self, asked: &[Asked]) -> String {
        assert!(self.open.is_none(), "a batch is open");
        let mut kept = vec![];
        let mut line = "ok".to_string();
        for Asked { store, object_id, length, .. } in asked {
            if *store {
                let slab = probe::class(*length);
                assert!(slab != u8::MAX, "beyond the largest class");
                let location = NonZeroU64::from(self.mapper.allocate_slab_slot(slab));
                line += &format!(" {location}");
                kept.push(stand_ins::row(object_id.0.get(), location.get()));
            } else {
                line += " 0";
                kept.push(UpdateMetadata::Free { object_id: *object_id, collection_id: CollectionId(0) });
            }
        }
        self.open = Some(kept);
        line
    }

    /// The second half: sort, then insert or remove, deferring what falls free.
    fn commit(&mut self) -> String {
        let mut kept = self.open.take().expect("no batch is open");
        kept.sort_unstable();
        let mut guard = self.waiting.pin();
        for update in kept {
            let last = match update {
                UpdateMetadata::Store { object_id, location, .. } => {
                    self.mapper.insert(object_id, SlabAddress::from(location))
                }
                UpdateMetadata::Free { object_id, .. } => {
                    let allocator = self.mapper.clone_object_id_allocator_arc();
                    guard.defer_drop(DeferredFree { allocator, freed_slot: object_id.0.get() });
                    self.mapper.remove(object_id)
                }
            };
            if let Some(last) = last {
                let allocator = self.mapper.clone_slab_allocator_arc(last.slab());
                guard.defer_drop(DeferredFree { allocator, freed_slot: last.slot() });
            }
        }
        "ok".into()
    }

    /// Not in the Rust, which has no abandon; what it does for one failed write, done for every Store of the batch.
    fn abandon(&mut self) -> String {
        for update in self.open.take().expect("no batch is open") {
            if let UpdateMetadata::Store { location, .. } = update {
                self.mapper.free_slab_slot(SlabAddress::from(location));
            }
        }
        "ok".into()
    }
}

impl Store for MapperStore {
    fn restart(&mut self, rows: &[(u64, u64)], _empty: bool) -> String {
        let rows: Vec<UpdateMetadata> = rows.iter().map(|(id, location)| stand_ins::row(*id, *location)).collect();
        *self = MapperStore { mapper: ObjectLocationMapper::new(&rows, 0.5), ..MapperStore::new() };
        "ok".into()
    }

    fn call(&mut self, name: &str, words: &mut Words) -> Option<String> {
        Some(match name {
            "new_id" => format!("ok {}", *self.mapper.allocate_object_id()),
            "offer" => self.offer(&words.updates()),
            "commit" => self.commit(),
            "abandon" => self.abandon(),
            "batch" => {
                let line = self.offer(&words.updates());
                self.commit();
                line
            }
            "release" => {
                self.waiting.manually_advance_epoch();
                "ok".into()
            }
            "lookup" => dump::lookup(&self.mapper, words.number()),
            "defrag" => dump::defrag(&self.mapper, words.ratio()),
            "reason" => dump::reason(&self.mapper, words.number(), words.ratio()),
            "slab_cutoff" => {
                let allocator = self.mapper.clone_slab_allocator_arc(words.number() as u8);
                match allocator.fragmentation_cutoff(words.ratio()) {
                    None => "nothing".into(),
                    Some((from, tip)) => format!("from {from} {tip}"),
                }
            }
            "counters" => dump::counters(&self.mapper),
            "counter" => dump::counter(&self.mapper, words.number()),
            "dump" => dump::dump(&self.mapper, &self.waiting, words.number(), words.number()),
            _ => return None,
        })
    }
}
