//! Snapshots: the live rows of a store as bytes, for a stick or a log. [`Store::snapshot`](crate::Store::snapshot) writes one,
//! [`Store::from_snapshot`](crate::Store::from_snapshot) opens a store from it. Without a store [`rows()`] reads it at once, and [`Rows`] row by
//! row.
//!
//! A snapshot is blocks of 512 bytes, each with its own check. A block, little-endian: its number from 0 on (4 bytes), how many rows it has
//! (2), version 2 (2), five rows of id, collection and location (8 each), key length (1), the key and zeros after it (64), and zeros (7); zeros up
//! to byte 508, and as in the settings cookie the check of those 508 bytes (4). Rows ascend by id. Only the last block may have fewer than five,
//! zeros in place of the others, and none where it is the only one.
//!
//! Snapshots of version 1 are read, too: their blocks have 20 rows of id, collection and location, and the keys that are read are empty. What is
//! written is of version 2, which a library of before refuses with 6. No snapshot mixes versions: the first block of the other is refused with 19, one
//! of an unknown version with 6.
//!
//! Bytes are read to their end exactly if they are what writing those rows in their version gives. Bytes cut at a block's end are the snapshot of
//! fewer rows, and no call can tell: keep their length beside them.
use crate::carried::word;
use crate::{raw, Carried, Refusal, RefusalKind, Row, SlabAddress};

/// The bytes of a block.
pub const BLOCK: usize = 512;
/// The most rows of a block that is written.
///
/// ```
/// use wentuhoro::{snapshot::{BLOCK, BLOCK_ROWS}, Store, Update};
///
/// let mut store = Store::new(99, 99)?;
/// let ids = (0..2 * BLOCK_ROWS).map(|_| store.allocate_object_id()).collect::<Result<Vec<_>, _>>()?;
/// store.offer(&ids.iter().map(|&id| Update::store(id, 3)).collect::<Vec<_>>())?;
/// store.commit()?;
/// assert_eq!(store.snapshot()?.len(), 2 * BLOCK);
/// # Ok::<(), wentuhoro::Refusal>(())
/// ```
pub const BLOCK_ROWS: usize = 5;
/// The most rows of a block of version 1.
const OLD_BLOCK_ROWS: usize = 20;
// A block's bytes before its rows; the bytes of a row of version 2, and those before its key.
const HEAD: usize = 8;
const ROW: usize = 96;
const BEFORE_KEY: usize = 25;

/// A row as a snapshot has it, its location packed: whether a store can hold it, a rebuild says. [`unpack`](Self::unpack) makes a store's
/// [`Row`] of it. Its key is the snapshot's own bytes.
///
/// ```
/// use wentuhoro::{snapshot::{self, PackedRow}, Carried, Row, SlabAddress, Store};
///
/// let row = Row::new(5, SlabAddress::from_slab_slot(3, 1)?).carrying(Carried::of_collection(7).with_key(b"lamp"));
/// let mut store = Store::new(9, 8)?;
/// store.rebuild(&[row])?;
/// let bytes = store.snapshot()?;
/// assert_eq!(snapshot::rows(&bytes)?, [PackedRow { id: 5, location: row.location.packed(), carried: row.carried }]);
/// # Ok::<(), wentuhoro::Refusal>(())
/// ```
#[derive(Clone, Copy, Debug, PartialEq, Eq, Hash)]
pub struct PackedRow<'a> {
    pub id: u64,
    /// As it is packed.
    pub location: u64,
    pub carried: Carried<'a>,
}

impl<'a> PackedRow<'a> {
    /// The row as a store has it, and a [`rebuild`](crate::Store::rebuild) takes it, under a slot capacity. Refuses as
    /// [`SlabAddress::unpack`] does, and a location of 0, which is no object's, with 3, as a rebuild does.
    ///
    /// ```
    /// # use wentuhoro::{snapshot, RefusalKind, Store, Update};
    /// # let mut store = Store::new(9, 8)?;
    /// # let id = store.allocate_object_id()?;
    /// # store.offer(&[Update::store(id, 3)])?;
    /// # store.commit()?;
    /// let bytes = store.snapshot()?;
    /// let packed = snapshot::rows(&bytes)?;
    /// let rows = packed.iter().map(|row| row.unpack(store.slots())).collect::<Result<Vec<_>, _>>()?;
    /// assert_eq!(rows, store.live());
    ///
    /// let nowhere = snapshot::PackedRow { location: 0, ..packed[0] };
    /// assert_eq!(nowhere.unpack(store.slots()).unwrap_err().kind, RefusalKind::OutOfRange);
    /// # Ok::<(), wentuhoro::Refusal>(())
    /// ```
    pub fn unpack(&self, slots: usize) -> Result<Row<'a>, Refusal> {
        let location = self.address(slots)?.ok_or(Refusal { kind: RefusalKind::OutOfRange, index: 0 })?;
        Ok(Row { id: self.id, location, carried: self.carried })
    }

    /// The slab and the slot under a slot capacity; none for a location of 0. Refuses as [`SlabAddress::unpack`] does.
    ///
    /// ```
    /// # use wentuhoro::{snapshot::Rows, Refusal, SlabAddress, Store, Update};
    /// # let mut store = Store::new(9, 8)?;
    /// # let id = store.allocate_object_id()?;
    /// # store.offer(&[Update::store(id, 3)])?;
    /// # store.commit()?;
    /// let bytes = store.snapshot()?;
    /// let row = Rows::new(&bytes).next().unwrap()?;
    /// assert_eq!(row.address(store.slots())?, Some(SlabAddress::from_slab_slot(0, 0)?));
    /// # Ok::<(), Refusal>(())
    /// ```
    pub fn address(&self, slots: usize) -> Result<Option<SlabAddress>, Refusal> {
        SlabAddress::unpack(slots, self.location)
    }
}

/// The rows of a snapshot, in order. A refusal, with the block's number as its index, is the last thing that it gives: 1 for no whole number of
/// blocks or a position outside the bytes, 4 for a check that differs, 6 for a version that is neither 1 nor 2, and 19 for a wrong number, count,
/// padding, key or row order, or a version that the block before has not.
///
/// It keeps its position and nothing else, so the whole block is judged with each row, which takes about 150 ns; [`rows()`] judges each block
/// once.
///
/// ```
/// use wentuhoro::{snapshot::Rows, Carried, RefusalKind, Store, Update};
///
/// let mut store = Store::new(9, 8)?;
/// for carried in [Carried::of_collection(7).with_key(b"lamp"), Carried::of_collection(8)] {
///     let id = store.allocate_object_id()?;
///     store.offer(&[Update::store(id, 3).carrying(carried)])?;
///     store.commit()?;
/// }
/// let mut bytes = store.snapshot()?;
/// let rows = Rows::new(&bytes).collect::<Result<Vec<_>, _>>()?;
/// assert_eq!(rows.iter().map(|row| (row.id, row.carried.collection)).collect::<Vec<_>>(), [(1, 7), (2, 8)]);
/// // The key is part of the bytes that were read: no copy is made of it.
/// assert_eq!((rows[0].carried.key, rows[0].carried.key.as_ptr()), (&b"lamp"[..], bytes[33..].as_ptr()));
///
/// bytes[100] ^= 1;
/// let mut damaged = Rows::new(&bytes);
/// assert_eq!(damaged.next().unwrap().unwrap_err().kind, RefusalKind::CheckDiffers);
/// assert_eq!(damaged.next(), None);
/// # Ok::<(), wentuhoro::Refusal>(())
/// ```
#[derive(Clone, Debug)]
pub struct Rows<'a> {
    bytes: &'a [u8],
    block: usize,
    row: usize,
    is_refused: bool,
}

impl<'a> Rows<'a> {
    /// From the first row on.
    ///
    /// ```
    /// use wentuhoro::{snapshot::Rows, Store};
    ///
    /// let empty = Store::new(9, 8)?.snapshot()?;
    /// assert_eq!((empty.len(), Rows::new(&empty).next()), (512, None));
    /// assert_eq!(Rows::new(&[]).next().unwrap().unwrap_err().kind.number(), 1);
    /// # Ok::<(), wentuhoro::Refusal>(())
    /// ```
    pub fn new(bytes: &'a [u8]) -> Rows<'a> {
        Rows::at(bytes, 0, 0)
    }

    /// From a position on: one that [`position`](Self::position) gave, or any other, which is judged as it is read.
    ///
    /// ```
    /// # use wentuhoro::{snapshot::Rows, Store, Update};
    /// # let mut store = Store::new(99, 99)?;
    /// # let ids = (0..8).map(|_| store.allocate_object_id()).collect::<Result<Vec<_>, _>>()?;
    /// # store.offer(&ids.iter().map(|&id| Update::store(id, 3)).collect::<Vec<_>>())?;
    /// # store.commit()?;
    /// // Eight objects: a block of five rows, and one of three.
    /// let bytes = store.snapshot()?;
    /// let mut rows = Rows::new(&bytes);
    /// rows.by_ref().take(5).for_each(drop);
    /// let (block, row) = rows.position();
    /// assert_eq!((block, row), (1, 0));
    /// assert_eq!(Rows::at(&bytes, block, row).next().unwrap()?.id, 6);
    /// # Ok::<(), wentuhoro::Refusal>(())
    /// ```
    pub fn at(bytes: &'a [u8], block: usize, row: usize) -> Rows<'a> {
        Rows { bytes, block, row, is_refused: false }
    }

    /// The block, and the row in it, that comes next: a place to go on from, as [`at`](Self::at) does.
    ///
    /// ```
    /// use wentuhoro::{snapshot::Rows, Store};
    ///
    /// let empty = Store::new(9, 8)?.snapshot()?;
    /// assert_eq!(Rows::new(&empty).position(), (0, 0));
    /// # Ok::<(), wentuhoro::Refusal>(())
    /// ```
    pub fn position(&self) -> (usize, usize) {
        (self.block, self.row)
    }
}

impl<'a> Iterator for Rows<'a> {
    type Item = Result<PackedRow<'a>, Refusal>;

    fn next(&mut self) -> Option<Result<PackedRow<'a>, Refusal>> {
        if self.is_refused {
            return None;
        }
        let mut values = [0; 8];
        let status = unsafe {
            raw::wentuhoro_snapshot_step(self.bytes.as_ptr(), self.bytes.len(), self.block, self.row, values.as_mut_ptr(), values.len())
        };
        if let Err(refusal) = Refusal::unless_granted(status) {
            self.is_refused = true;
            return Some(Err(refusal));
        }
        let [is_row, id, collection, location, block, row, key, length] = values;
        if is_row == 0 {
            return None;
        }
        (self.block, self.row) = (block as usize, row as usize);
        let key = &self.bytes[key as usize..][..length as usize];
        Some(Ok(PackedRow { id, location, carried: Carried::of_collection(collection).with_key(key) }))
    }
}

impl std::iter::FusedIterator for Rows<'_> {}

/// All rows of a snapshot, in order, each block judged once. Refuses as [`Rows`] does, and then gives no rows.
///
/// ```
/// use wentuhoro::{snapshot, Carried, RefusalKind, Store, Update};
///
/// let mut store = Store::new(9, 8)?;
/// for carried in [Carried::of_collection(7).with_key(b"lamp"), Carried::of_collection(8)] {
///     let id = store.allocate_object_id()?;
///     store.offer(&[Update::store(id, 3).carrying(carried)])?;
///     store.commit()?;
/// }
/// let mut bytes = store.snapshot()?;
/// let rows = snapshot::rows(&bytes)?;
/// assert_eq!(rows.iter().map(|row| (row.id, row.carried.collection)).collect::<Vec<_>>(), [(1, 7), (2, 8)]);
/// // The key is part of the bytes that were read: no copy is made of it.
/// assert_eq!((rows[0].carried.key, rows[0].carried.key.as_ptr()), (&b"lamp"[..], bytes[33..].as_ptr()));
///
/// bytes[100] ^= 1;
/// assert_eq!(snapshot::rows(&bytes).unwrap_err().kind, RefusalKind::CheckDiffers);
/// # Ok::<(), wentuhoro::Refusal>(())
/// ```
pub fn rows(bytes: &[u8]) -> Result<Vec<PackedRow<'_>>, Refusal> {
    let Lists { ids, locations, carried } = lists(bytes)?;
    let carried = carried.chunks_exact(Carried::WIDTH).enumerate().map(|(at, row)| {
        let key = key_in(bytes, at, word(&row[8..]) as usize);
        Carried::of_collection(word(row)).with_key(key)
    });
    Ok(ids.into_iter().zip(locations).zip(carried).map(|((id, location), carried)| PackedRow { id, location, carried }).collect())
}

/// The key of a row, by how long it is, in bytes that were judged: a row that has one is of version 2.
fn key_in(bytes: &[u8], row: usize, length: usize) -> &[u8] {
    match length {
        0 => &[],
        _ => &bytes[BLOCK * (row / BLOCK_ROWS) + HEAD + ROW * (row % BLOCK_ROWS) + BEFORE_KEY..][..length],
    }
}

/// Rows as a rebuild is lent them.
pub(crate) struct Lists {
    pub ids: Vec<u64>,
    pub locations: Vec<u64>,
    pub carried: Vec<u8>,
}

/// All rows at once, each block judged once.
pub(crate) fn lists(bytes: &[u8]) -> Result<Lists, Refusal> {
    // The first block says the version, in bytes 6 and 7.
    let block_rows = if matches!(bytes, [_, _, _, _, _, _, 2, 0, ..]) { BLOCK_ROWS } else { OLD_BLOCK_ROWS };
    let most = bytes.len() / BLOCK * block_rows;
    let (mut ids, mut locations, mut carried) = (vec![0; most], vec![0; most], vec![0; most * Carried::WIDTH]);
    let mut rows = 0;
    Refusal::unless_granted(unsafe {
        raw::wentuhoro_snapshot_read(
            bytes.as_ptr(),
            bytes.len(),
            ids.as_mut_ptr(),
            ids.len(),
            locations.as_mut_ptr(),
            locations.len(),
            carried.as_mut_ptr(),
            carried.len(),
            &mut rows,
            1,
        )
    })?;
    ids.truncate(rows as usize);
    locations.truncate(rows as usize);
    carried.truncate(rows as usize * Carried::WIDTH);
    Ok(Lists { ids, locations, carried })
}
