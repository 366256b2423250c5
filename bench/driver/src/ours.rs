//! The exported calls, and a store of lent tables for them.
use wentuhoro::raw;

pub use wentuhoro::crc32;

pub fn class(n: u64) -> u64 {
    let mut slab = [0];
    let status = unsafe { raw::wentuhoro_class(n, slab.as_mut_ptr(), 1) };
    if status == 0 { slab[0] } else { 255 }
}

pub fn frame_write(slot: &mut [u8], object: &[u8]) -> u64 {
    unsafe { raw::wentuhoro_frame_write(slot.as_mut_ptr(), slot.len(), object.as_ptr(), object.len()) }
}

pub fn frame_read(slot: &[u8]) -> Option<u64> {
    let mut length = [0];
    let status = unsafe { raw::wentuhoro_frame_read(slot.as_ptr(), slot.len(), length.as_mut_ptr(), 1) };
    (status == 0).then_some(length[0])
}

/// The bytes that a row carries.
pub const CARRIED_WIDTH: usize = 80;
/// The bytes of a key, where there is one.
pub const KEY: usize = 16;

/// What a row carries as it is brought: a collection, and a key of so many bytes.
pub fn brought(collection: u64, length: usize) -> [u8; CARRIED_WIDTH] {
    let mut row = [0; CARRIED_WIDTH];
    row[..8].copy_from_slice(&collection.to_le_bytes());
    row[8..16].copy_from_slice(&(length as u64).to_le_bytes());
    row[16..16 + length].fill(collection as u8 | 1);
    row
}

/// The updates of a batch, and room for its locations.
#[derive(Clone)]
pub struct Batch {
    pub ids: Vec<u64>,
    /// 1 for a Store, 0 for a Free.
    pub stores: Vec<u8>,
    pub lengths: Vec<u64>,
    pub carried: Vec<u8>,
    pub placed: Vec<u64>,
}

impl Batch {
    pub fn stores(ids: impl IntoIterator<Item = u64>, length: impl Fn(usize) -> u64) -> Batch {
        let ids: Vec<u64> = ids.into_iter().collect();
        let count = ids.len();
        let carried = ids.iter().flat_map(|id| brought(*id, 0)).collect();
        Batch { ids, stores: vec![1; count], lengths: (0..count).map(length).collect(), carried, placed: vec![0; count] }
    }

    /// The same, each object with a key of so many bytes.
    pub fn with_keys(self, length: usize) -> Batch {
        Batch { carried: self.ids.iter().flat_map(|id| brought(*id, length)).collect(), ..self }
    }

    pub fn frees(ids: impl IntoIterator<Item = u64>) -> Batch {
        let batch = Batch::stores(ids, |_| 0);
        Batch { stores: vec![0; batch.ids.len()], ..batch }
    }
}

/// Lists that a page of ids is looked up into.
pub struct Page {
    pub numbers: Vec<u8>,
    pub found: Vec<u64>,
    pub rows: Vec<u8>,
}

impl Page {
    pub fn new(count: usize) -> Page {
        Page { numbers: vec![0; count], found: vec![0; count], rows: vec![0; count * CARRIED_WIDTH] }
    }
}

pub struct Ours {
    pub ids: usize,
    pub slots: usize,
    pub id_marks: Vec<u8>,
    pub locations: Vec<u64>,
    pub slot_marks: Vec<u8>,
    pub owners: Vec<u64>,
    pub batch: Vec<u64>,
    pub tallies: Vec<u64>,
    pub carried: Vec<u8>,
    pub moved: (Vec<u64>, Vec<u64>),
}

macro_rules! status {
    ($store:ident, $call:ident: $($table:ident),* $(; $($word:expr),*)?) => {
        unsafe { raw::$call($store.ids, $store.slots, $($store.$table.as_mut_ptr(), $store.$table.len(),)* $($($word),*)?) }
    };
}

macro_rules! lend {
    ($store:ident, $call:ident: $($lent:tt)*) => {
        assert_eq!(status!($store, $call: $($lent)*), 0, stringify!($call))
    };
}

impl Ours {
    pub fn new(ids: usize, slots: usize) -> Ours {
        let mut store = Ours {
            ids,
            slots,
            id_marks: vec![0; ids],
            locations: vec![0; ids],
            slot_marks: vec![0; 78 * slots],
            owners: vec![0; 78 * slots],
            batch: vec![0; 513],
            tallies: vec![0; 473],
            carried: vec![0; (ids + 256) * CARRIED_WIDTH],
            moved: (vec![0; ids - 1], vec![0; ids - 1]),
        };
        store.fresh();
        store
    }

    pub fn fresh(&mut self) {
        lend!(self, wentuhoro_fresh: id_marks, locations, slot_marks, owners, batch, tallies, carried);
    }

    pub fn rebuild(&mut self, ids: &[u64], locations: &[u64], carried: &[u8]) {
        lend!(self, wentuhoro_rebuild: id_marks, locations, slot_marks, owners, batch, tallies, carried;
            ids.as_ptr(), ids.len(), locations.as_ptr(), locations.len(), carried.as_ptr(), carried.len());
    }

    pub fn new_id(&mut self) -> u64 {
        let mut id = 0;
        lend!(self, wentuhoro_new_id: id_marks, batch, tallies; &mut id, 1);
        id
    }

    pub fn lookup(&mut self, id: u64) -> u64 {
        let (mut location, mut row) = (0, [0; CARRIED_WIDTH]);
        lend!(self, wentuhoro_lookup: id_marks, locations, slot_marks, owners, tallies, carried;
            id, &mut location, 1, row.as_mut_ptr(), row.len());
        location
    }

    pub fn lookup_page(&mut self, asked: &[u64], page: &mut Page) {
        lend!(self, wentuhoro_lookup_page: id_marks, locations, slot_marks, owners, tallies, carried;
            asked.as_ptr(), asked.len(), page.numbers.as_mut_ptr(), page.numbers.len(),
            page.found.as_mut_ptr(), page.found.len(), page.rows.as_mut_ptr(), page.rows.len());
    }

    /// An object's key, in the table.
    pub fn key(&mut self, id: u64) -> &[u8] {
        self.lookup(id);
        let row = &self.carried[CARRIED_WIDTH * id as usize..][..CARRIED_WIDTH];
        &row[9..9 + row[8] as usize]
    }

    fn offered(&mut self, batch: &mut Batch) -> u64 {
        let count = batch.ids.len();
        status!(self, wentuhoro_offer: id_marks, locations, slot_marks, owners, batch, tallies, carried;
            batch.ids.as_ptr(), count, batch.stores.as_ptr(), count, batch.lengths.as_ptr(), count,
            batch.carried.as_ptr(), batch.carried.len(), batch.placed.as_mut_ptr(), count)
    }

    pub fn offer(&mut self, batch: &mut Batch) {
        assert_eq!(self.offered(batch), 0, "wentuhoro_offer");
    }

    /// Refused with 8, since the first id is 0: after the classes of all updates are found.
    pub fn offer_refused(&mut self, batch: &mut Batch) {
        assert_eq!(self.offered(batch), 8, "wentuhoro_offer");
    }

    pub fn commit(&mut self) {
        lend!(self, wentuhoro_commit: id_marks, locations, slot_marks, owners, batch, tallies, carried);
    }

    pub fn abandon(&mut self) {
        lend!(self, wentuhoro_abandon: slot_marks, batch, tallies);
    }

    pub fn release(&mut self) {
        lend!(self, wentuhoro_release: id_marks, slot_marks, batch, tallies);
    }

    pub fn stats(&mut self) -> [u64; 4] {
        let mut sums = [0; 4];
        lend!(self, wentuhoro_stats: tallies; sums.as_mut_ptr(), 4);
        sums
    }

    pub fn counters(&mut self) -> [u64; 158] {
        let mut pairs = [0; 158];
        let (granted, freed) = pairs.split_at_mut(79);
        lend!(self, wentuhoro_counters: tallies; granted.as_mut_ptr(), 79, freed.as_mut_ptr(), 79);
        pairs
    }

    /// How many rows are listed, in `moved`.
    pub fn defrag(&mut self, ratio: f32) -> usize {
        let mut count = 0;
        lend!(self, wentuhoro_defrag: locations, slot_marks, owners, batch, tallies;
            ratio, self.moved.0.as_mut_ptr(), self.moved.0.len(), self.moved.1.as_mut_ptr(), self.moved.1.len(), &mut count, 1);
        count as usize
    }

    /// The seven values.
    pub fn reason(&mut self, id: u64, ratio: f32) -> [u64; 7] {
        let mut told = [0; 7];
        lend!(self, wentuhoro_reason: id_marks, locations, slot_marks, owners, batch, tallies; id, ratio, told.as_mut_ptr(), told.len());
        told
    }

    pub fn snapshot_length(&mut self) -> usize {
        let mut length = 0;
        lend!(self, wentuhoro_snapshot_length: id_marks, locations, batch, tallies; &mut length, 1);
        length as usize
    }

    pub fn snapshot_write(&mut self, file: &mut [u8]) {
        lend!(self, wentuhoro_snapshot_write: id_marks, locations, slot_marks, owners, batch, tallies, carried;
            file.as_mut_ptr(), file.len());
    }

    pub fn truncation(&mut self, slab: u64) -> [u64; 3] {
        let mut cut = [0; 3];
        lend!(self, wentuhoro_truncation: slot_marks, batch, tallies; slab, 80, cut.as_mut_ptr(), 3);
        cut
    }

    pub fn cut_done(&mut self, slab: u64) {
        lend!(self, wentuhoro_cut_done: slot_marks, batch, tallies; slab, 80);
    }
}

/// Lists that a snapshot is read into.
#[derive(Clone, PartialEq)]
pub struct Rows {
    pub ids: Vec<u64>,
    pub locations: Vec<u64>,
    pub carried: Vec<u8>,
}

impl Rows {
    pub fn new(count: usize) -> Rows {
        Rows { ids: vec![0; count], locations: vec![0; count], carried: vec![0; count * CARRIED_WIDTH] }
    }
}

/// How many rows there are, or a status above 0.
pub fn snapshot_read(file: &[u8], rows: &mut Rows) -> Result<usize, u64> {
    let mut count = 0;
    let status = unsafe {
        raw::wentuhoro_snapshot_read(
            file.as_ptr(), file.len(), rows.ids.as_mut_ptr(), rows.ids.len(), rows.locations.as_mut_ptr(), rows.locations.len(),
            rows.carried.as_mut_ptr(), rows.carried.len(), &mut count, 1,
        )
    };
    if status == 0 { Ok(count as usize) } else { Err(status) }
}
