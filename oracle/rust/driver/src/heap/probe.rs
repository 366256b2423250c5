//! Private items of heap.rs, handed to the driver as they are.

use super::*;
use std::os::unix::fs::FileExt;

pub fn class(length: u64) -> u8 {
    slab_for_size(length as usize)
}

/// The bytes that `Slab::write` leaves in a file, for slot 0.
pub fn frame(file: &fs::File, size: u64, object: Vec<u8>) -> io::Result<Vec<u8>> {
    slab_over(file, size).write(0, object)?;
    let mut slot = vec![0; size as usize];
    file.read_exact_at(&mut slot, 0)?;
    Ok(slot)
}

/// The last 16 bytes that `Slab::write` leaves, for an object of ones: slots of 4 GiB are not read back whole.
pub fn frame_end(file: &fs::File, size: u64, length: u64) -> io::Result<Vec<u8>> {
    let mut object = Vec::with_capacity(size as usize);
    object.resize(length as usize, 1);
    slab_over(file, size).write(0, object)?;
    let mut end = vec![0; 16];
    file.read_exact_at(&mut end, size - 16)?;
    file.set_len(0)?;
    Ok(end)
}

/// What `Slab::read` hands back for a slot of these bytes.
pub fn unframe(file: &fs::File, slot: &[u8]) -> io::Result<Vec<u8>> {
    file.write_all_at(slot, 0)?;
    slab_over(file, slot.len() as u64).read(0, &mut Ebr::default().pin())
}

fn slab_over(file: &fs::File, size: u64) -> Slab {
    Slab {
        file: file.try_clone().unwrap(),
        slot_size: size as usize,
        max_live_slot_since_last_truncation: AtomicU64::new(0),
    }
}

pub fn cookie(leaf_fanout: u64) -> Vec<u8> {
    PersistentSettings::V1 { leaf_fanout }.serialize()
}

pub fn uncookie(leaf_fanout: u64, cookie: &[u8]) -> io::Result<()> {
    let previous = PersistentSettings::deserialize(cookie)?;
    PersistentSettings::V1 { leaf_fanout }.check_compatibility(&previous)
}

pub fn table(heap: &Heap) -> &ObjectLocationMapper {
    &heap.table
}

pub fn waiting(heap: &Heap) -> &Ebr<DeferredFree, 16, 16> {
    &heap.free_ebr
}

/// Another table under the same heap: a rebuild without a recovery.
pub fn replace_table(heap: &mut Heap, rows: &[UpdateMetadata]) {
    heap.table = ObjectLocationMapper::new(rows, 0.5);
    heap.free_ebr = Ebr::default();
}

pub fn high_mark(heap: &Heap, slab: usize) -> u64 {
    heap.slabs[slab].max_live_slot_since_last_truncation.load(Ordering::SeqCst)
}

pub fn set_high_mark(heap: &Heap, slab: usize, slot: u64) {
    heap.slabs[slab].max_live_slot_since_last_truncation.store(slot, Ordering::SeqCst);
}

pub fn file_length(heap: &Heap, slab: usize) -> u64 {
    heap.slabs[slab].file.metadata().unwrap().len()
}

pub fn set_file_length(heap: &Heap, slab: usize, length: u64) {
    heap.slabs[slab].file.set_len(length).unwrap();
}

pub fn slot_bytes(heap: &Heap, slab: usize, slot: u64) -> Vec<u8> {
    let size = SLAB_SIZES[slab];
    let mut bytes = vec![0; size];
    heap.slabs[slab].file.read_exact_at(&mut bytes, slot * size as u64).unwrap();
    bytes
}

pub fn slot_size(slab: usize) -> u64 {
    SLAB_SIZES[slab] as u64
}
