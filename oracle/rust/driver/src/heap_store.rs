//! The whole `Heap`, with real files, on one rayon thread.

use std::sync::atomic::Ordering;

use crate::heap::{probe, Heap};
use crate::leaves::said;
use crate::words::{hex, TemporaryDirectory, Words};
use crate::{dump, stand_ins, Config, MetadataStore, ObjectId, Store};

pub struct HeapStore {
    directory: TemporaryDirectory,
    heap: Option<Heap>,
    pool: rayon::ThreadPool,
}

const FANOUT: usize = 1024;

pub fn recover(directory: &TemporaryDirectory) -> std::io::Result<Heap> {
    let config = Config { path: directory.0.clone(), target_heap_file_fill_ratio: 0.5 };
    Heap::recover(FANOUT, &config).map(|recovery| recovery.heap)
}

pub fn pool(threads: usize) -> rayon::ThreadPool {
    rayon::ThreadPoolBuilder::new().num_threads(threads).build().unwrap()
}

impl HeapStore {
    pub fn new() -> HeapStore {
        let mut store = HeapStore { directory: TemporaryDirectory::new(), heap: None, pool: pool(1) };
        store.restart(&[], true);
        store
    }

    /// Files cut, bytes given back, object bytes written, files written to.
    fn batch(&self, words: &mut Words) -> String {
        let batch = words.updates().iter().map(|asked| asked.update()).collect();
        match self.pool.install(|| self.heap().write_batch(batch)) {
            Err(error) => said(error),
            Ok(stats) => format!(
                "ok {} {} {} {}",
                stats.truncated_files, stats.truncated_bytes, stats.heap_bytes_written, stats.heap_files_written_to
            ),
        }
    }

    pub fn heap(&self) -> &Heap {
        self.heap.as_ref().unwrap()
    }

    fn read(&self, id: u64) -> String {
        match self.heap().read(ObjectId::new(id).expect("a read of id 0")) {
            None => "none".into(),
            Some(Err(error)) => said(error),
            Some(Ok(object)) => format!("ok {} {}", object.len(), crc32fast::hash(&object)),
        }
    }

    /// For rows `SLAB TIP HIGH`: one object in slot TIP - 1, the high mark set, a file as long as the mark says; then an
    /// empty batch, whose truncation pass is the answer: for each row the file's length and the high mark after it.
    fn truncations(&mut self, words: &mut Words) -> String {
        let count = words.number();
        let rows: Vec<(u64, u64, u64)> = (0..count).map(|_| (words.number(), words.number(), words.number())).collect();
        let size = |slab: u64| probe::slot_size(slab as usize);
        let located = |at: usize, slab: u64, tip: u64| stand_ins::row(at as u64 + 1, ((slab + 1) << 56) + tip - 1);
        let table: Vec<_> = rows.iter().enumerate().map(|(at, row)| located(at, row.0, row.1)).collect();
        probe::replace_table(self.heap.as_mut().unwrap(), &table);
        for (slab, tip, high) in &rows {
            probe::set_high_mark(self.heap(), *slab as usize, *high);
            probe::set_file_length(self.heap(), *slab as usize, (tip.max(&(high + 1))) * size(*slab));
        }
        let stats = match self.pool.install(|| self.heap().write_batch(vec![])) {
            Err(error) => return said(error),
            Ok(stats) => stats,
        };
        let mut line = format!("ok {} {}", stats.truncated_files, stats.truncated_bytes);
        for (slab, _, _) in &rows {
            let length = probe::file_length(self.heap(), *slab as usize);
            line += &format!(" {length} {}", probe::high_mark(self.heap(), *slab as usize));
        }
        line
    }
}

impl Store for HeapStore {
    /// A rebuild is a recovery over the files as they are; fresh starts from an empty directory.
    fn restart(&mut self, rows: &[(u64, u64)], empty: bool) -> String {
        // The heap holds a lock on its directory.
        self.heap = None;
        fault_injection::FAULT_INJECT_COUNTER.store(0, Ordering::SeqCst);
        if empty {
            self.directory = TemporaryDirectory::new();
        }
        MetadataStore::write_rows(&self.directory.0.join("metadata"), rows);
        match recover(&self.directory) {
            Err(error) => said(error),
            Ok(heap) => {
                self.heap = Some(heap);
                "ok".into()
            }
        }
    }

    fn call(&mut self, name: &str, words: &mut Words) -> Option<String> {
        let table = probe::table(self.heap());
        Some(match name {
            "new_id" => format!("ok {}", *self.heap().allocate_object_id()),
            "batch" => self.batch(words),
            "release" => {
                self.heap().manually_advance_epoch();
                "ok".into()
            }
            "lookup" => dump::lookup(table, words.number()),
            "read" => self.read(words.number()),
            "defrag" => dump::defrag(table, words.ratio()),
            "reason" => dump::reason(table, words.number(), words.ratio()),
            "counters" => dump::counters(table),
            "counter" => dump::counter(table, words.number()),
            "dump" => dump::dump(table, probe::waiting(self.heap()), words.number(), words.number()),
            "high" => format!("ok {}", probe::high_mark(self.heap(), words.number() as usize)),
            "file_length" => format!("ok {}", probe::file_length(self.heap(), words.number() as usize)),
            "slot" => {
                let bytes = probe::slot_bytes(self.heap(), words.number() as usize, words.number());
                let (body, check) = bytes.split_at(bytes.len() - 4);
                format!("ok {} {}", crc32fast::hash(body), hex(check))
            }
            "truncations" => self.truncations(words),
            "fault" => {
                fault_injection::FAULT_INJECT_COUNTER.store(words.number(), Ordering::SeqCst);
                "ok".into()
            }
            _ => return None,
        })
    }
}
