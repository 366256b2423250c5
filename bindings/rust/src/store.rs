use crate::snapshot::{self, Lists};
use crate::{raw, Carried, Page, Reason, Refusal, SlabAddress};

const MOST_UPDATES: usize = 256;
const BATCH_WORDS: usize = 513;
const TALLY_WORDS: usize = 473;
const ALLOCATORS: usize = 79;

/// The store: which ids and slots are free, held or pending, where each object lies, and what its row carries.
///
/// It owns the tables that the library is lent; [`Clone`] copies them. Calls have sled's names where the thing is the same.
#[derive(Clone, Debug)]
pub struct Store {
    ids: usize,
    slots: usize,
    id_marks: Box<[u8]>,
    locations: Box<[u64]>,
    slot_marks: Box<[u8]>,
    owners: Box<[u64]>,
    batch: Box<[u64]>,
    tallies: Box<[u64]>,
    /// A row for each id, then one for each update that a batch may have.
    carried: Box<[u8]>,
}

/// One update of a batch. What a Store carries is borrowed for as long as the update is kept; the store copies it.
///
/// ```
/// use wentuhoro::{Carried, Store, Update};
///
/// let mut store = Store::new(9, 8)?;
/// let id = store.allocate_object_id()?;
/// let key = format!("icons/{id}");
/// store.offer(&[Update::Store { id, length: 3, carried: Carried::of_collection(7).with_key(key.as_bytes()) }])?;
/// store.commit()?;
/// drop(key);
/// assert_eq!(store.find(id)?.carried.key, b"icons/1");
/// store.offer(&[Update::Free { id }])?;
/// store.commit()?;
/// assert!(store.find(id).is_err());
/// # Ok::<(), wentuhoro::Refusal>(())
/// ```
#[derive(Clone, Copy, Debug, PartialEq, Eq, Hash)]
pub enum Update<'a> {
    /// An object of so many bytes takes a slot and becomes this id's, and the id's row carries this.
    Store { id: u64, length: u64, carried: Carried<'a> },
    /// The id and the slot that it has, if any, are given up.
    Free { id: u64 },
}

/// An object that is stored. [`Store::live`] gives these, and a [`rebuild`](Store::rebuild) takes them.
///
/// ```
/// use wentuhoro::{Carried, Row, SlabAddress, Store};
///
/// let location = SlabAddress::from_slab_slot(3, 1)?;
/// let row = Row { id: 5, location, carried: Carried::of_collection(7).with_key(b"lamp") };
/// let mut store = Store::new(9, 8)?;
/// store.rebuild(&[row])?;
/// assert_eq!(store.find(5)?.location, location);
/// # Ok::<(), wentuhoro::Refusal>(())
/// ```
#[derive(Clone, Copy, Debug, PartialEq, Eq, Hash)]
pub struct Row<'a> {
    pub id: u64,
    pub location: SlabAddress,
    pub carried: Carried<'a>,
}

/// What a lookup answers. The key is the store's own bytes, so that the answer is gone when the store changes; a key that is kept is copied. Of a
/// [`Page`] it is the page's, which stands when the store changes.
///
/// ```
/// use wentuhoro::{Carried, Found, Row, SlabAddress, Store};
///
/// let row = Row::new(5, SlabAddress::from_slab_slot(3, 1)?).carrying(Carried::of_collection(7).with_key(b"lamp"));
/// let mut store = Store::new(9, 8)?;
/// store.rebuild(&[row])?;
/// assert_eq!(store.find(5)?, Found { location: row.location, carried: row.carried });
/// let key = store.find(5)?.carried.key.to_vec();
/// store.fresh();
/// assert_eq!(key, b"lamp");
/// # Ok::<(), wentuhoro::Refusal>(())
/// ```
#[derive(Clone, Copy, Debug, PartialEq, Eq, Hash)]
pub struct Found<'a> {
    pub location: SlabAddress,
    pub carried: Carried<'a>,
}

/// What was granted and freed since fresh or rebuild: ids, then slots of all slabs.
#[derive(Clone, Copy, Debug, Default, PartialEq, Eq, Hash)]
pub struct AllocatorStats {
    pub objects_allocated: u64,
    pub objects_freed: u64,
    pub heap_slots_allocated: u64,
    pub heap_slots_freed: u64,
}

/// The length that a slab's file is to be cut to, and the bytes that this gives back.
#[derive(Clone, Copy, Debug, PartialEq, Eq, Hash)]
pub struct Cut {
    /// A whole number of slots, below the length before.
    pub length: u64,
    /// The length before, counted up to and with the slab's high mark, less the new one: never 0. A file that reaches further gives back more.
    pub given_back: u64,
}

/// Makes a call on the store's tables, each passed as a pointer and a length, then the call's own words.
macro_rules! lend {
    ($store:ident, $call:ident: $($how:ident $table:ident),* $(; $($word:expr),*)?) => {
        // The tables are seven boxes, so none overlaps another; what is passed beside them is a local's, or lent by the caller for this call.
        Refusal::unless_granted(unsafe {
            raw::$call($store.ids, $store.slots, $(pointer!($how $store $table), $store.$table.len(),)* $($($word),*)?)
        })
    };
}

macro_rules! pointer {
    (reads $store:ident $table:ident) => { $store.$table.as_ptr() };
    (writes $store:ident $table:ident) => { $store.$table.as_mut_ptr() };
}

impl Store {
    /// A fresh store for ids 1 to `ids - 1` and `slots` slots in each slab. Refuses capacities other than 2 to 65,536 ids and 1 to 65,536
    /// slots with 1.
    pub fn new(ids: usize, slots: usize) -> Result<Store, Refusal> {
        let tallies = vec![0; TALLY_WORDS].into_boxed_slice();
        // The library judges the capacities before tables of that size are made.
        Refusal::unless_granted(unsafe { raw::wentuhoro_stats(ids, slots, tallies.as_ptr(), tallies.len(), [0; 4].as_mut_ptr(), 4) })?;
        let all_slots = SlabAddress::SLABS * slots;
        let mut store = Store {
            ids,
            slots,
            id_marks: vec![0; ids].into(),
            locations: vec![0; ids].into(),
            slot_marks: vec![0; all_slots].into(),
            owners: vec![0; all_slots].into(),
            batch: vec![0; BATCH_WORDS].into(),
            tallies,
            carried: vec![0; (ids + MOST_UPDATES) * Carried::WIDTH].into(),
        };
        store.fresh();
        Ok(store)
    }

    /// The id capacity.
    pub fn ids(&self) -> usize {
        self.ids
    }

    /// The slot capacity, the same in every slab.
    pub fn slots(&self) -> usize {
        self.slots
    }

    /// Holds nothing from now on. A batch that was open is gone.
    pub fn fresh(&mut self) {
        lend!(
            self,
            wentuhoro_fresh: writes id_marks, writes locations, writes slot_marks, writes owners, writes batch, writes tallies,
            writes carried
        )
        .expect("the tables have their lengths");
    }

    /// A fresh store that holds the rows of a [`snapshot`](Self::snapshot). Of a store that was at rest when it was written, with nothing pending
    /// and every id stored, and of the same capacities, this one gives every later answer: ids, slots, refusals, defrag lists and what rows
    /// carry; counters and truncation excepted, which begin anew. Of any other store it holds the stored objects: ids without one, and what was
    /// pending, are not in a snapshot and are free here. A snapshot of version 1 has no keys: they are empty here.
    ///
    /// Refuses capacities as [`new`](Self::new) does, then bytes as [`snapshot::Rows`] does, with the block's number, then rows as a
    /// rebuild does, with the row's.
    ///
    /// ```
    /// # use wentuhoro::{Carried, Store, Update};
    /// # let mut store = Store::new(9, 8)?;
    /// # let id = store.allocate_object_id()?;
    /// # store.offer(&[Update::store(id, 100).carrying(Carried::of_collection(7))])?;
    /// # store.commit()?;
    /// let bytes = store.snapshot()?;
    /// let mut opened = Store::from_snapshot(store.ids(), store.slots(), &bytes)?;
    /// assert_eq!(opened.find(id)?, store.find(id)?);
    /// assert_eq!(opened.allocate_object_id()?, store.allocate_object_id()?);
    /// # Ok::<(), wentuhoro::Refusal>(())
    /// ```
    pub fn from_snapshot(ids: usize, slots: usize, bytes: &[u8]) -> Result<Store, Refusal> {
        let mut store = Store::new(ids, slots)?;
        store.rebuild_from(&snapshot::lists(bytes)?)?;
        Ok(store)
    }

    /// Holds these ids and slots from now on, and nothing else. A batch that was open is gone; counters and high marks are 0.
    ///
    /// From the [`live`](Self::live) rows of a store at rest, with no batch open, nothing pending and every id stored, and of the same capacities,
    /// it gives every later answer as that store does, counters and truncation excepted. Of any other store ids without an object, and what is
    /// pending, are no rows and become free.
    ///
    /// Refuses with 1, then for each row an id out of range with 8, a repeated one with 9, a slot past the capacity with 3, a repeated
    /// location with 16, a key of over 64 bytes with 21.
    ///
    /// ```
    /// # use wentuhoro::{Store, Update};
    /// # let mut store = Store::new(9, 8)?;
    /// # let id = store.allocate_object_id()?;
    /// # store.offer(&[Update::store(id, 100)])?;
    /// # store.commit()?;
    /// // On another machine, of a store at rest: every later id, slot, refusal and defrag list is the same, and so is what rows carry.
    /// let mut copy = Store::new(store.ids(), store.slots())?;
    /// copy.rebuild(&store.live())?;
    /// assert_eq!(copy.allocate_object_id()?, store.allocate_object_id()?);
    /// # Ok::<(), wentuhoro::Refusal>(())
    /// ```
    pub fn rebuild(&mut self, rows: &[Row]) -> Result<(), Refusal> {
        let (ids, locations) = rows.iter().map(|row| (row.id, row.location.packed())).unzip();
        self.rebuild_from(&Lists { ids, locations, carried: Carried::brought(rows.iter().map(|row| row.carried)) })
    }

    fn rebuild_from(&mut self, rows: &Lists) -> Result<(), Refusal> {
        lend!(
            self,
            wentuhoro_rebuild: writes id_marks, writes locations, writes slot_marks, writes owners, writes batch, writes tallies,
            writes carried;
            rows.ids.as_ptr(),
            rows.ids.len(),
            rows.locations.as_ptr(),
            rows.locations.len(),
            rows.carried.as_ptr(),
            rows.carried.len()
        )
    }

    /// The rows for a [`rebuild`](Self::rebuild): each id that has a location, in order. A rebuild from them gives every later answer as
    /// if it had not been made, counters and truncation excepted, where no batch is open, nothing is pending and every id is stored.
    ///
    /// Their keys are this store's own bytes, so the rows are gone when it changes; a [`snapshot`](Self::snapshot) or a clone has them then.
    ///
    /// ```
    /// # use wentuhoro::{Carried, Store, Update};
    /// # let mut store = Store::new(9, 8)?;
    /// let ids = [store.allocate_object_id()?, store.allocate_object_id()?];
    /// store.offer(&[Update::store(ids[1], 3).carrying(Carried::of_collection(7).with_key(b"lamp"))])?;
    /// store.commit()?;
    /// // Of the two ids one has an object.
    /// let rows = store.live();
    /// assert_eq!((rows.len(), rows[0].id, rows[0].location.slab()), (1, 2, 0));
    /// assert_eq!((rows[0].carried.collection, rows[0].carried.key), (7, &b"lamp"[..]));
    /// # Ok::<(), wentuhoro::Refusal>(())
    /// ```
    pub fn live(&self) -> Vec<Row<'_>> {
        let row = |id, Found { location, carried }| Row { id, location, carried };
        (1..self.ids as u64).filter_map(|id| Some(row(id, self.find(id).ok()?))).collect()
    }

    /// The same rows as bytes, to be kept or carried: [`from_snapshot`](Self::from_snapshot) opens a store from them, which answers as this one
    /// does where nothing is pending and every id is stored. Ids without an object, pending ids and pending slots are not in a snapshot: store
    /// or free the ones, and [`release`](Self::release) the others, before it is taken. Refuses while a batch is open with 11.
    ///
    /// The module [`snapshot`] has the format, 512 bytes for each five objects.
    ///
    /// ```
    /// use wentuhoro::{Store, Update};
    ///
    /// let mut store = Store::new(99, 99)?;
    /// let ids = (0..6).map(|_| store.allocate_object_id()).collect::<Result<Vec<_>, _>>()?;
    /// store.offer(&ids.iter().map(|&id| Update::store(id, 3)).collect::<Vec<_>>())?;
    /// assert_eq!(store.snapshot().unwrap_err().kind.number(), 11);
    /// store.commit()?;
    /// assert_eq!(store.snapshot()?.len(), 1_024);
    /// # Ok::<(), wentuhoro::Refusal>(())
    /// ```
    pub fn snapshot(&self) -> Result<Vec<u8>, Refusal> {
        let mut length = 0;
        lend!(self, wentuhoro_snapshot_length: reads id_marks, reads locations, reads batch, reads tallies; &mut length, 1)?;
        let mut bytes = vec![0; length as usize];
        lend!(
            self,
            wentuhoro_snapshot_write: reads id_marks, reads locations, reads slot_marks, reads owners, reads batch, reads tallies,
            reads carried;
            bytes.as_mut_ptr(),
            bytes.len()
        )?;
        Ok(bytes)
    }

    /// The smallest free id above 0, held from now on. Refuses while a batch is open with 11, where none is free with 10.
    pub fn allocate_object_id(&mut self) -> Result<u64, Refusal> {
        let mut id = 0;
        lend!(self, wentuhoro_new_id: writes id_marks, reads batch, writes tallies; &mut id, 1)?;
        Ok(id)
    }

    /// Refuses an id that is not held or has no location with 8.
    pub fn get_location_for_object(&self, id: u64) -> Result<SlabAddress, Refusal> {
        Ok(self.find(id)?.location)
    }

    /// Where an object lies, and what its row carries; the key is this store's own bytes, and no copy is made of it. Refuses an id that is not held or
    /// has no location with 8.
    ///
    /// ```
    /// # use wentuhoro::{Carried, Store, Update};
    /// # let mut store = Store::new(9, 8)?;
    /// let id = store.allocate_object_id()?;
    /// store.offer(&[Update::store(id, 100).carrying(Carried::of_collection(7).with_key(b"lamp"))])?;
    /// // A batch takes effect with its commit.
    /// assert_eq!(store.find(id).unwrap_err().kind.number(), 8);
    /// store.commit()?;
    /// let found = store.find(id)?;
    /// assert_eq!((found.location.slab(), found.location.slot()), (3, 0));
    /// assert_eq!((found.carried.collection, found.carried.key), (7, &b"lamp"[..]));
    /// # Ok::<(), wentuhoro::Refusal>(())
    /// ```
    pub fn find(&self, id: u64) -> Result<Found<'_>, Refusal> {
        let (mut location, mut row) = (0, [0; Carried::WIDTH]);
        lend!(
            self,
            wentuhoro_lookup: reads id_marks, reads locations, reads slot_marks, reads owners, reads tallies, reads carried;
            id,
            &mut location,
            1,
            row.as_mut_ptr(),
            row.len()
        )?;
        let location = SlabAddress::of(location).expect("a granted lookup has a location");
        // The row that was answered is the table's own.
        Ok(Found { location, carried: Carried::kept(&self.carried[id as usize * Carried::WIDTH..][..Carried::WIDTH]) })
    }

    /// Many lookups in one call: a row for each id, in the order asked, as [`find`](Self::find) answers it. An id may come twice; one that is not held or
    /// has no location has the refusal 8 in its row, and the other rows do not depend on it. An open batch does not matter: what it stores is seen once
    /// it is committed.
    ///
    /// The page has its own copy of the rows, and stands when the store changes. Refuses over 256 ids with 15.
    ///
    /// ```
    /// # use wentuhoro::{Carried, Store, Update};
    /// # let mut store = Store::new(99, 99)?;
    /// # let icons = (0..40).map(|_| store.allocate_object_id()).collect::<Result<Vec<u64>, _>>()?;
    /// # let keys: Vec<String> = icons.iter().map(|id| format!("icons/{id}")).collect();
    /// # let carried = |at: usize| Carried::of_collection(7).with_key(keys[at].as_bytes());
    /// # store.offer(&icons.iter().enumerate().map(|(at, &id)| Update::store(id, 3).carrying(carried(at))).collect::<Vec<_>>())?;
    /// # store.commit()?;
    /// // A page opens 40 icons, and one of them was taken away.
    /// store.offer(&[Update::free(icons[17])])?;
    /// store.commit()?;
    /// let page = store.get_locations_for_objects(&icons)?;
    /// assert_eq!(page.len(), 40);
    /// assert_eq!(page.get(16).unwrap()?.carried.key, b"icons/17");
    /// assert_eq!(page.get(17).unwrap().unwrap_err().kind.number(), 8);
    /// assert_eq!(page.get(18).unwrap()?.carried.key, b"icons/19");
    /// # Ok::<(), wentuhoro::Refusal>(())
    /// ```
    pub fn get_locations_for_objects(&self, ids: &[u64]) -> Result<Page, Refusal> {
        let mut page = Page::new();
        self.get_locations_into(ids, &mut page)?;
        Ok(page)
    }

    /// The same into a page that was made before, whose rows of before are gone: a browser that asks for every frame allocates once. Refuses over 256
    /// ids with 15; the page is then as it was.
    ///
    /// ```
    /// # use wentuhoro::{Page, Row, SlabAddress, Store};
    /// # let icons: Vec<u64> = (1..=40).collect();
    /// # let mut store = Store::new(99, 99)?;
    /// # let rows = icons.iter().map(|&id| Ok(Row::new(id, SlabAddress::from_slab_slot(3, id as usize)?)));
    /// # store.rebuild(&rows.collect::<Result<Vec<_>, _>>()?)?;
    /// let mut page = Page::new();
    /// for frame in 0..3 {
    ///     store.get_locations_into(&icons[frame..], &mut page)?;
    ///     assert_eq!(page.len(), 40 - frame);
    ///     assert_eq!(page.get(0), Some(store.find(icons[frame])));
    /// }
    /// let before = page.clone();
    /// assert_eq!(store.get_locations_into(&[1; 257], &mut page).unwrap_err().kind.number(), 15);
    /// assert_eq!(page, before);
    /// # Ok::<(), wentuhoro::Refusal>(())
    /// ```
    pub fn get_locations_into(&self, ids: &[u64], page: &mut Page) -> Result<(), Refusal> {
        let before = page.len();
        // Too many are refused however many they are: no more than one too many is lent, so that a page never grows further.
        let asked = &ids[..ids.len().min(Page::MOST_IDS + 1)];
        page.resize(asked.len());
        let answer = lend!(
            self,
            wentuhoro_lookup_page: reads id_marks, reads locations, reads slot_marks, reads owners, reads tallies, reads carried;
            asked.as_ptr(),
            asked.len(),
            page.numbers.as_mut_ptr(),
            page.numbers.len(),
            page.locations.as_mut_ptr(),
            page.locations.len(),
            page.rows.as_mut_ptr(),
            page.rows.len()
        );
        if answer.is_err() {
            // A page has fewer rows than were refused: those of before are its first.
            page.resize(before);
        }
        answer
    }

    /// Opens a batch: takes the smallest free slot for each Store, in list order. The answer has a location for each update, none for a
    /// Free. The caller writes the slots, then calls [`commit`](Self::commit) or [`abandon`](Self::abandon).
    ///
    /// Refuses while a batch is open with 11, over 256 updates with 15; an update of an id that is not held with 8, of an earlier update's
    /// id with 9, with a key of over 64 bytes with 21, of too large an object with 2; and with 10, index of the slab, where a slab has too few
    /// free slots.
    pub fn offer(&mut self, updates: &[Update]) -> Result<Vec<Option<SlabAddress>>, Refusal> {
        let count = updates.len();
        let ids: Vec<u64> = updates.iter().map(|update| update.id()).collect();
        let stores: Vec<u8> = updates.iter().map(|update| matches!(update, Update::Store { .. }).into()).collect();
        let lengths: Vec<u64> = updates.iter().map(|update| update.length()).collect();
        let carried = Carried::brought(updates.iter().map(|update| update.carried()));
        let mut placed = vec![0; count];
        lend!(
            self,
            wentuhoro_offer: reads id_marks, reads locations, writes slot_marks, reads owners, writes batch, writes tallies,
            writes carried;
            ids.as_ptr(),
            count,
            stores.as_ptr(),
            count,
            lengths.as_ptr(),
            count,
            carried.as_ptr(),
            carried.len(),
            placed.as_mut_ptr(),
            count
        )?;
        Ok(placed.into_iter().map(SlabAddress::of).collect())
    }

    /// The open batch takes effect. Ids that it frees, and slots that its objects had before, are pending until a
    /// [`release`](Self::release). Refuses where none is open with 12.
    pub fn commit(&mut self) -> Result<(), Refusal> {
        lend!(
            self,
            wentuhoro_commit: writes id_marks, writes locations, writes slot_marks, writes owners, writes batch, writes tallies,
            writes carried
        )
    }

    /// The open batch is dropped, and the slots that it took are free again. Refuses where none is open with 12.
    pub fn abandon(&mut self) -> Result<(), Refusal> {
        lend!(self, wentuhoro_abandon: writes slot_marks, writes batch, writes tallies)
    }

    /// Every pending id and slot becomes free. Refuses while a batch is open with 11.
    pub fn release(&mut self) -> Result<(), Refusal> {
        lend!(self, wentuhoro_release: writes id_marks, writes slot_marks, reads batch, writes tallies)
    }

    /// The objects to move so that slabs are filled to this ratio (above 0, at most 1), by slab, then slot. Refuses while a batch is open
    /// with 11, another ratio with 14.
    pub fn objects_to_defrag(&self, target_fill_ratio: f32) -> Result<Vec<(u64, SlabAddress)>, Refusal> {
        let rows = self.ids - 1;
        let (mut ids, mut locations, mut count) = (vec![0; rows], vec![0; rows], 0);
        lend!(
            self,
            wentuhoro_defrag: reads locations, reads slot_marks, reads owners, reads batch, reads tallies;
            target_fill_ratio,
            ids.as_mut_ptr(),
            rows,
            locations.as_mut_ptr(),
            rows,
            &mut count,
            1
        )?;
        let moved = ids.into_iter().zip(locations).take(count as usize);
        Ok(moved.filter_map(|(id, location)| Some((id, SlabAddress::of(location)?))).collect())
    }

    /// Why an object is among those [to move](Self::objects_to_defrag) at this ratio, or is not: exactly one reason applies. An id that is not held or
    /// has no location is a reason, too. Shown, a reason is the sentence that staff read. Refuses while a batch is open with 11, a ratio that is not above
    /// 0 and at most 1 with 14.
    ///
    /// ```
    /// # use wentuhoro::{Store, Update};
    /// # let mut store = Store::new(9, 8)?;
    /// # let ids = (0..8).map(|_| store.allocate_object_id()).collect::<Result<Vec<_>, _>>()?;
    /// # store.offer(&ids.iter().map(|&id| Update::store(id, 3)).collect::<Vec<_>>())?;
    /// # store.commit()?;
    /// // Objects 1 to 8 are in slots 0 to 7 of one slab, and five of them go.
    /// store.offer(&[1, 2, 3, 5, 7].map(Update::free))?;
    /// store.commit()?;
    /// store.release()?;
    /// let why = |id, ratio| store.reason_for_object(id, ratio).map(|reason| reason.to_string());
    /// assert_eq!(
    ///     why(8, 0.75)?,
    ///     "object 8 (slab 0, slot 7): moved, since 3 of the 8 slots below the tip are in use (ratio 0.75, line 4); \
    ///      2 smaller slots are taken"
    /// );
    /// assert_eq!(
    ///     why(4, 0.75)?,
    ///     "object 4 (slab 0, slot 3): stays, since its slot is before the line, though 3 of the 8 slots below the tip \
    ///      are in use (ratio 0.75, line 4); no smaller slot is taken"
    /// );
    /// assert_eq!(
    ///     why(6, 0.25)?,
    ///     "object 6 (slab 0, slot 5): stays, since 3 of the 8 slots below the tip are in use, which is full enough \
    ///      (ratio 0.25); 1 smaller slot is taken"
    /// );
    /// assert_eq!(why(1, 0.75)?, "object 1: no such stored object");
    /// # Ok::<(), wentuhoro::Refusal>(())
    /// ```
    pub fn reason_for_object(&self, id: u64, target_fill_ratio: f32) -> Result<Reason, Refusal> {
        let mut told = [0; 7];
        lend!(
            self,
            wentuhoro_reason: reads id_marks, reads locations, reads slot_marks, reads owners, reads batch, reads tallies;
            id,
            target_fill_ratio,
            told.as_mut_ptr(),
            told.len()
        )?;
        Ok(Reason::told(id, target_fill_ratio, told))
    }

    /// Ids and slots granted and freed since fresh or rebuild, modulo 2^64.
    pub fn stats(&self) -> AllocatorStats {
        let mut sums = [0; 4];
        lend!(self, wentuhoro_stats: reads tallies; sums.as_mut_ptr(), sums.len()).expect("the tables have their lengths");
        let [objects_allocated, objects_freed, heap_slots_allocated, heap_slots_freed] = sums;
        AllocatorStats { objects_allocated, objects_freed, heap_slots_allocated, heap_slots_freed }
    }

    /// Granted and freed by each allocator: the ids', then each slab's.
    pub fn counters(&self) -> [(u64, u64); ALLOCATORS] {
        let (mut granted, mut freed) = ([0; ALLOCATORS], [0; ALLOCATORS]);
        lend!(self, wentuhoro_counters: reads tallies; granted.as_mut_ptr(), ALLOCATORS, freed.as_mut_ptr(), ALLOCATORS)
            .expect("the tables have their lengths");
        std::array::from_fn(|at| (granted[at], freed[at]))
    }

    /// Whether a slab's file is to be cut, for a target `t` of 1 to 86 (sled's is 80), which is the percentage of it that must be in use. Raises the
    /// slab's high mark to its last slot in use: the mark is the highest that was asked about since the last cut, fresh or rebuild.
    ///
    /// A file is cut to what is in use, and from 17 slots on to 15 percent more, rounded up to whole slots. `None` where enough is in use, and where
    /// in whole slots nothing is left to cut.
    ///
    /// Refuses while a batch is open with 11, a slab past 77 with 3, another t with 14.
    ///
    /// ```
    /// # use wentuhoro::{Store, Update};
    /// # let mut store = Store::new(200, 200)?;
    /// # let ids: Vec<u64> = (0..100).map(|_| store.allocate_object_id()).collect::<Result<_, _>>()?;
    /// # store.offer(&ids.iter().map(|&id| Update::store(id, 3)).collect::<Vec<_>>())?;
    /// # store.commit()?;
    /// // A hundred objects in slab 0, whose slots have 64 bytes; all but 17 of them go.
    /// assert_eq!(store.truncation(0, 80)?, None);
    /// store.offer(&ids[17..].iter().map(|&id| Update::free(id)).collect::<Vec<_>>())?;
    /// store.commit()?;
    /// store.release()?;
    /// let cut = store.truncation(0, 80)?.unwrap();
    /// // Of 6,400 bytes 20 slots are left.
    /// assert_eq!((cut.length, cut.given_back), (1_280, 5_120));
    /// store.cut_done(0, 80)?;
    /// assert_eq!(store.truncation(0, 80)?, None);
    /// # Ok::<(), wentuhoro::Refusal>(())
    /// ```
    pub fn truncation(&mut self, slab: usize, t: u64) -> Result<Option<Cut>, Refusal> {
        let mut cut = [0; 3];
        lend!(self, wentuhoro_truncation: reads slot_marks, reads batch, writes tallies; slab as u64, t, cut.as_mut_ptr(), cut.len())?;
        let [is_cut, length, given_back] = cut;
        Ok((is_cut == 1).then_some(Cut { length, given_back }))
    }

    /// A slab's file was cut: its high mark is its last slot in use again. Refuses as [`truncation`](Self::truncation) does, and with 17 where
    /// that says keep.
    pub fn cut_done(&mut self, slab: usize, t: u64) -> Result<(), Refusal> {
        lend!(self, wentuhoro_cut_done: reads slot_marks, reads batch, writes tallies; slab as u64, t)
    }
}

impl<'a> Update<'a> {
    /// A Store whose row carries the default: collection 0, and an empty key.
    ///
    /// ```
    /// use wentuhoro::{Carried, Update};
    ///
    /// assert_eq!(Update::store(1, 3), Update::Store { id: 1, length: 3, carried: Carried::default() });
    /// ```
    pub fn store(id: u64, length: u64) -> Update<'a> {
        Update::Store { id, length, carried: Carried::default() }
    }

    /// A Free: the id and the slot that it has, if any, are given up with the commit.
    ///
    /// ```
    /// use wentuhoro::Update;
    ///
    /// assert_eq!([1, 2].map(Update::free), [Update::Free { id: 1 }, Update::Free { id: 2 }]);
    /// ```
    pub fn free(id: u64) -> Update<'a> {
        Update::Free { id }
    }

    /// The same, and the id's row carries this. A Free carries nothing, and stays as it is.
    ///
    /// ```
    /// use wentuhoro::{Carried, Update};
    ///
    /// let carried = Carried::of_collection(7).with_key(b"lamp");
    /// assert_eq!(Update::store(1, 3).carrying(carried), Update::Store { id: 1, length: 3, carried });
    /// assert_eq!(Update::free(1).carrying(carried), Update::Free { id: 1 });
    /// ```
    pub fn carrying(self, carried: Carried<'_>) -> Update<'_> {
        match self {
            Update::Store { id, length, .. } => Update::Store { id, length, carried },
            Update::Free { id } => Update::Free { id },
        }
    }

    /// The id that it stores or frees.
    ///
    /// ```
    /// use wentuhoro::Update;
    ///
    /// assert_eq!([Update::store(1, 3), Update::free(2)].map(|update| update.id()), [1, 2]);
    /// ```
    pub fn id(&self) -> u64 {
        match *self {
            Update::Store { id, .. } | Update::Free { id } => id,
        }
    }

    fn length(&self) -> u64 {
        match *self {
            Update::Store { length, .. } => length,
            Update::Free { .. } => 0,
        }
    }

    fn carried(&self) -> Carried<'a> {
        match *self {
            Update::Store { carried, .. } => carried,
            Update::Free { .. } => Carried::default(),
        }
    }
}

impl<'a> Row<'a> {
    /// A row that carries the default: collection 0, and an empty key.
    ///
    /// ```
    /// use wentuhoro::{Carried, Row, SlabAddress};
    ///
    /// assert_eq!(Row::new(5, SlabAddress::from_slab_slot(3, 1)?).carried, Carried::default());
    /// # Ok::<(), wentuhoro::Refusal>(())
    /// ```
    pub fn new(id: u64, location: SlabAddress) -> Row<'a> {
        Row { id, location, carried: Carried::default() }
    }

    /// The same, carrying this.
    ///
    /// ```
    /// use wentuhoro::{Carried, Row, SlabAddress, Store};
    ///
    /// let mut store = Store::new(9, 8)?;
    /// let row = Row::new(5, SlabAddress::from_slab_slot(3, 1)?).carrying(Carried::of_collection(7).with_key(b"lamp"));
    /// store.rebuild(&[row])?;
    /// assert_eq!(store.live(), [row]);
    /// # Ok::<(), wentuhoro::Refusal>(())
    /// ```
    pub fn carrying(self, carried: Carried<'_>) -> Row<'_> {
        Row { id: self.id, location: self.location, carried }
    }
}
