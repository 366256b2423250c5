//! Everything an allocator and a table hold, as one line. `oracle/model.py` writes the same line from its own state.

use std::sync::Arc;

use ebr::Ebr;

use crate::heap::N_SLABS;
use crate::id_allocator::probe::free_and_tip;
use crate::object_location_mapper::{probe, ObjectLocationMapper};
use crate::{Allocator, DeferredFree};

/// For the ids, then for each slab of tip above 0: tip, free numbers below it, pending numbers, counters, table entries
/// that are not 0 below the capacity.
pub fn dump(mapper: &ObjectLocationMapper, waiting: &Ebr<DeferredFree, 16, 16>, ids: u64, slots: u64) -> String {
    let locations = entries(ids, |id| probe::location(mapper, id));
    let mut line = format!("ids {} {}", allocator(&mapper.clone_object_id_allocator_arc(), waiting), locations);
    for slab in 0..N_SLABS {
        let of_slab = mapper.clone_slab_allocator_arc(slab as u8);
        if of_slab.max_allocated().is_some() {
            let owners = entries(slots, |slot| probe::owner(mapper, slab, slot));
            line += &format!(" slab {slab} {} {owners}", allocator(&of_slab, waiting));
        }
    }
    line
}

fn allocator(of: &Arc<Allocator>, waiting: &Ebr<DeferredFree, 16, 16>) -> String {
    let (free, tip) = free_and_tip(of);
    let mut pending = vec![];
    waiting.for_each_deferred(|deferred| {
        if Arc::ptr_eq(&deferred.allocator, of) {
            pending.push(deferred.freed_slot);
        }
    });
    pending.sort();
    let (granted, freed) = of.counters();
    format!("tip {tip} free {} pending {} counted {granted} {freed} entries", list(&free), list(&pending))
}

fn list(numbers: &[u64]) -> String {
    numbers.iter().map(|number| format!("{number},")).collect::<String>() + "."
}

fn entries(count: u64, entry: impl Fn(u64) -> u64) -> String {
    (0..count).filter(|at| entry(*at) != 0).map(|at| format!("{at}:{},", entry(at))).collect::<String>() + "."
}

/// The defrag list by slab, then slot; the Rust gives a set.
pub fn defrag(mapper: &ObjectLocationMapper, ratio: f32) -> String {
    let objects = probe::with_ratio(mapper, ratio).objects_to_defrag();
    let mut rows: Vec<(u64, u64)> = objects.into_iter().map(|id| (probe::location(mapper, *id), *id)).collect();
    rows.sort();
    rows.iter().fold(format!("ok {}", rows.len()), |line, (location, id)| line + &format!(" {id} {location}"))
}

pub fn counters(mapper: &ObjectLocationMapper) -> String {
    let sums = mapper.stats();
    let all = [sums.objects_allocated, sums.objects_freed, sums.heap_slots_allocated, sums.heap_slots_freed];
    all.iter().fold("ok".to_string(), |line, number| line + &format!(" {number}"))
}

/// Allocator 0 is the ids', allocator k + 1 slab k's.
pub fn counter(mapper: &ObjectLocationMapper, number: u64) -> String {
    let (granted, freed) = match number {
        0 => mapper.clone_object_id_allocator_arc().counters(),
        _ => mapper.clone_slab_allocator_arc((number - 1) as u8).counters(),
    };
    format!("ok {granted} {freed}")
}

pub fn lookup(mapper: &ObjectLocationMapper, id: u64) -> String {
    let id = crate::ObjectId::new(id).expect("a lookup of id 0");
    match mapper.get_location_for_object(id) {
        None => "none".into(),
        Some(address) => format!("ok {}", std::num::NonZeroU64::from(address)),
    }
}

/// Why an object is on the defrag list, or is not: NUMBER SLAB SLOT SMALLER LIVE TIP LINE. The Rust has no such call; each of these is read off what
/// it has. NUMBER is 0 where its lookup finds nothing, 1 where its cutoff of the slab gives nothing, else 3 or 2 by whether its list has the object.
pub fn reason(mapper: &ObjectLocationMapper, id: u64, ratio: f32) -> String {
    let id = crate::ObjectId::new(id).expect("a reason of id 0");
    let Some(address) = mapper.get_location_for_object(id) else {
        return "ok 0 0 0 0 0 0 0".into();
    };
    let slots = mapper.clone_slab_allocator_arc(address.slab());
    let cutoff = slots.fragmentation_cutoff(ratio);
    let (free, next) = free_and_tip(&slots);
    let is_listed = probe::with_ratio(mapper, ratio).objects_to_defrag().contains(&id);
    let (number, line, tip) = match (cutoff, is_listed) {
        (None, false) => (1, 0, next),
        (Some((from, tip)), false) => (2, from, tip),
        (Some((from, tip)), true) => (3, from, tip),
        (None, true) => panic!("listed, and the cutoff gives nothing"),
    };
    let smaller = address.slot() - free.iter().filter(|slot| **slot < address.slot()).count() as u64;
    let live = next - free.len() as u64;
    format!("ok {number} {} {} {smaller} {live} {tip} {line}", address.slab(), address.slot())
}
