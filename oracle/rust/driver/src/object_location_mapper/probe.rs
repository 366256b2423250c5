//! Private items of object_location_mapper.rs, handed to the driver as they are.

use super::*;

/// The same tables under another fill ratio.
pub fn with_ratio(mapper: &ObjectLocationMapper, ratio: f32) -> ObjectLocationMapper {
    ObjectLocationMapper { target_fill_ratio: ratio, ..mapper.clone() }
}

pub fn location(mapper: &ObjectLocationMapper, id: u64) -> u64 {
    mapper.object_id_to_location.get(id).load(Ordering::Acquire)
}

pub fn owner(mapper: &ObjectLocationMapper, slab: usize, slot: u64) -> u64 {
    mapper.slab_tenancies[slab].slot_to_object_id.get(slot).load(Ordering::Acquire)
}
