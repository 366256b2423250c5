//! A call of the store, and its line.
use std::fmt::Write;

use crate::tables::Update;

#[derive(Clone)]
pub enum Call {
    Fresh,
    Rebuild(Vec<(u64, u64)>),
    NewId,
    Lookup(u64),
    /// As many lookups in one call. The Rust has none but single ones.
    Page(Vec<u64>),
    Offer(Vec<Update>),
    Commit,
    Abandon,
    /// Offer and commit; on a heap also the slots written and the files cut.
    Batch(Vec<Update>),
    Release,
    Counters,
    Counter(u64),
    /// A ratio by its bits.
    Defrag(u32),
    /// Why an object is on that list, or is not: an id, and a ratio by its bits. The Rust has no such call, its driver puts one together.
    Reason(u64, u32),
    /// The whole state.
    Dump,
    /// A snapshot of the live rows, written and read back. The Rust has none.
    Snapshot,
    /// Of a heap.
    Read(u64),
    Slot(u64, u64),
    High(u64),
    FileLength(u64),
}

impl Call {
    pub fn line(&self, ids: u64, slots: u64) -> String {
        match self {
            Call::Fresh => format!("fresh {ids} {slots}"),
            Call::Rebuild(rows) => rows.iter().fold(format!("rebuild {}", rows.len()), |mut line, (id, location)| {
                write!(line, " {id} {location}").unwrap();
                line
            }),
            Call::NewId => "new_id".into(),
            Call::Lookup(id) => format!("lookup {id}"),
            Call::Page(ids) => ids.iter().fold(format!("page {}", ids.len()), |mut line, id| {
                write!(line, " {id}").unwrap();
                line
            }),
            Call::Offer(updates) => listed("offer", updates),
            Call::Commit => "commit".into(),
            Call::Abandon => "abandon".into(),
            Call::Batch(updates) => listed("batch", updates),
            Call::Release => "release".into(),
            Call::Counters => "counters".into(),
            Call::Counter(allocator) => format!("counter {allocator}"),
            Call::Defrag(bits) => format!("defrag {bits}"),
            Call::Reason(id, bits) => format!("reason {id} {bits}"),
            Call::Dump => format!("dump {ids} {slots}"),
            Call::Snapshot => "snapshot".into(),
            Call::Read(id) => format!("read {id}"),
            Call::Slot(slab, slot) => format!("slot {slab} {slot}"),
            Call::High(slab) => format!("high {slab}"),
            Call::FileLength(slab) => format!("file_length {slab}"),
        }
    }
}

fn listed(name: &str, updates: &[Update]) -> String {
    updates.iter().fold(format!("{name} {}", updates.len()), |mut line, Update { store, id, length, seed }| {
        match store {
            true => write!(line, " s {id} {length} {seed}").unwrap(),
            false => write!(line, " f {id} 0 0").unwrap(),
        }
        line
    })
}
