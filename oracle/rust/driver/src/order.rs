//! What thread timing does to placement.

use std::io::BufRead;

use crate::heap::{probe, Heap, Update};
use crate::heap_store::{pool, recover};
use crate::object_location_mapper::probe::location;
use crate::words::TemporaryDirectory;
use crate::{CollectionId, ObjectId};

const BATCH: u64 = 2_000;
const LENGTH: usize = 3_000;
const REFILL_BATCH: usize = 250;

fn store(id: ObjectId, length: usize) -> Update {
    Update::Store { object_id: id, collection_id: CollectionId(0), low_key: Default::default(), data: vec![0; length] }
}

/// Batches of 2,000 objects of one size, each in a fresh heap: in list order, every slot is above the one before it.
/// So many that a second thread, where it is to run at all, gets its turn before the first is done.
pub fn print_order(threads: usize, rounds: usize) {
    let pool = pool(threads);
    let mut out_of_order = 0;
    for _ in 0..rounds {
        let directory = TemporaryDirectory::new();
        let heap: Heap = recover(&directory).unwrap();
        let ids: Vec<ObjectId> = (0..BATCH).map(|_| heap.allocate_object_id()).collect();
        let batch = ids.iter().map(|id| store(*id, LENGTH)).collect();
        pool.install(|| heap.write_batch(batch)).unwrap();
        let slots: Vec<u64> = ids.iter().map(|id| location(probe::table(&heap), **id)).collect();
        out_of_order += usize::from(!slots.is_sorted());
    }
    println!("{threads} rayon thread(s): {out_of_order} of {rounds} batches out of list order");
}

/// Standard input: `ID LENGTH` a line, ids from 1 on in order, stored in batches of 250 on a fresh heap. Prints
/// `ID SLAB SLOT` for each.
pub fn print_morning(threads: usize) {
    let pool = pool(threads);
    let directory = TemporaryDirectory::new();
    let heap: Heap = recover(&directory).unwrap();
    let mut refill = vec![];
    for line in std::io::stdin().lock().lines() {
        let line = line.unwrap();
        let (id, length) = line.split_once(' ').expect("ID LENGTH");
        let object_id = heap.allocate_object_id();
        assert_eq!(id.parse::<u64>().unwrap(), *object_id, "ids are listed from 1 on");
        refill.push((object_id, length.parse().unwrap()));
    }
    for part in refill.chunks(REFILL_BATCH) {
        let batch = part.iter().map(|(id, length)| store(*id, *length)).collect();
        pool.install(|| heap.write_batch(batch)).unwrap();
    }
    for (id, _) in refill {
        let location = location(probe::table(&heap), *id);
        println!("{} {} {}", *id, (location >> 56) - 1, location & ((1 << 56) - 1));
    }
}
