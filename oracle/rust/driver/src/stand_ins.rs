//! Stand-ins for the parts of sled's own crate that the three files lean on.

use std::io;
use std::num::NonZeroU64;
use std::path::{Path, PathBuf};
use std::sync::atomic::AtomicPtr;
use std::sync::Arc;

use crate::heap::UpdateMetadata;

/// As in sled's lib.rs, without its serialization.
#[derive(Debug, Clone, Copy, PartialOrd, Ord, PartialEq, Eq, Hash)]
pub struct ObjectId(pub(crate) NonZeroU64);

impl ObjectId {
    pub(crate) fn new(from: u64) -> Option<ObjectId> {
        NonZeroU64::new(from).map(ObjectId)
    }
}

impl std::ops::Deref for ObjectId {
    type Target = u64;

    fn deref(&self) -> &u64 {
        // NonZeroU64 is repr(transparent), as sled's own lib.rs says at this place.
        unsafe { &*(&self.0 as *const NonZeroU64 as *const u64) }
    }
}

/// As in sled's lib.rs. Always 0 here: the heap carries it and never looks.
#[derive(Debug, Clone, Copy, Default, PartialOrd, Ord, PartialEq, Eq, Hash)]
pub struct CollectionId(pub(crate) u64);

/// Assumed: of the configuration, `Heap::recover` reads these two fields.
pub struct Config {
    pub path: PathBuf,
    pub target_heap_file_fill_ratio: f32,
}

/// Assumed: the metadata store gives at recovery the live rows and nothing else, and a batch handed to it is kept. Here
/// the rows stand in a file, `ID LOCATION` a line, that the driver writes before a recovery; batches handed over are
/// dropped, since the driver is told the rows of each restart.
pub struct MetadataStore {
    global_error: Arc<AtomicPtr<(io::ErrorKind, String)>>,
}

impl MetadataStore {
    pub fn recover(path: PathBuf) -> io::Result<(MetadataStore, Vec<UpdateMetadata>)> {
        let text = std::fs::read_to_string(path).unwrap_or_default();
        let rows = text.lines().map(|line| {
            let (id, location) = line.split_once(' ').unwrap();
            row(id.parse().unwrap(), location.parse().unwrap())
        });
        Ok((MetadataStore { global_error: Arc::default() }, rows.collect()))
    }

    pub fn write_rows(path: &Path, rows: &[(u64, u64)]) {
        let text: String = rows.iter().map(|(id, location)| format!("{id} {location}\n")).collect();
        std::fs::write(path, text).unwrap();
    }

    pub fn get_global_error_arc(&self) -> Arc<AtomicPtr<(io::ErrorKind, String)>> {
        self.global_error.clone()
    }

    pub fn write_batch(&self, _batch: &[UpdateMetadata]) -> io::Result<u64> {
        Ok(0)
    }
}

pub fn row(id: u64, location: u64) -> UpdateMetadata {
    UpdateMetadata::Store {
        object_id: ObjectId::new(id).expect("id 0 in a row"),
        collection_id: CollectionId(0),
        low_key: Default::default(),
        location: NonZeroU64::new(location).expect("location 0 in a row"),
    }
}
