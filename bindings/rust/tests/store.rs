//! The store through the crate: what the examples in its documentation leave out.
use wentuhoro::{raw, AllocatorStats, Carried, Cut, RefusalKind, Row, SlabAddress, Store, Update};

fn store(id: u64, length: u64) -> Update<'static> {
    Update::store(id, length)
}

fn refusal<T: std::fmt::Debug>(answer: Result<T, wentuhoro::Refusal>) -> (RefusalKind, usize) {
    let refusal = answer.unwrap_err();
    (refusal.kind, refusal.index)
}

#[test]
fn capacities_are_judged_before_tables_are_made() {
    for (ids, slots) in [(0, 8), (1, 8), (65_537, 8), (usize::MAX, 8), (9, 0), (9, 65_537), (9, usize::MAX)] {
        assert_eq!(refusal(Store::new(ids, slots)), (RefusalKind::WrongShape, 0));
    }
    assert!(Store::new(2, 1).is_ok());
    assert!(Store::new(65_536, 65_536).is_ok());
}

#[test]
fn an_abandoned_batch_leaves_no_trace_but_in_the_counters() {
    let mut kept = Store::new(9, 8).unwrap();
    let id = kept.allocate_object_id().unwrap();
    let mut abandoned = kept.clone();
    abandoned.offer(&[store(id, 3)]).unwrap();
    assert_eq!(refusal(abandoned.allocate_object_id()), (RefusalKind::BatchOpen, 0));
    abandoned.abandon().unwrap();
    assert_eq!(refusal(abandoned.abandon()), (RefusalKind::NoBatch, 0));
    assert_eq!(abandoned.offer(&[store(id, 3)]), kept.offer(&[store(id, 3)]));
    abandoned.commit().unwrap();
    let all = AllocatorStats { objects_allocated: 2, objects_freed: 0, heap_slots_allocated: 2, heap_slots_freed: 1 };
    assert_eq!(abandoned.stats(), all);
    assert_eq!(abandoned.counters()[..2], [(2, 0), (2, 1)]);
}

#[test]
fn batches_are_refused_with_the_updates_index() {
    let mut small = Store::new(4, 1).unwrap();
    let ids: Vec<u64> = (0..3).map(|_| small.allocate_object_id().unwrap()).collect();
    assert_eq!(refusal(small.allocate_object_id()), (RefusalKind::NoneFree, 0));
    assert_eq!(refusal(small.offer(&[store(1, 3), Update::free(4)])), (RefusalKind::NoSuchId, 1));
    assert_eq!(refusal(small.offer(&[store(1, 3), store(2, 1 << 40)])), (RefusalKind::TooLarge, 1));
    assert_eq!(refusal(small.offer(&[store(1, 3), store(2, 60), store(3, 61)])), (RefusalKind::NoneFree, 1));
    assert_eq!(refusal(small.offer(&vec![Update::free(1); 257])), (RefusalKind::TooMany, 0));
    let placed = small.offer(&[store(ids[0], 3), Update::free(ids[1])]).unwrap();
    assert_eq!(placed, [Some(SlabAddress::from_slab_slot(0, 0).unwrap()), None]);
}

#[test]
fn rows_are_refused_with_the_rows_index_and_change_nothing() {
    let mut rebuilt = Store::new(9, 8).unwrap();
    let at = |id, slot| Row::new(id, SlabAddress::from_slab_slot(3, slot).unwrap()).carrying(Carried::of_collection(id << 56));
    rebuilt.rebuild(&[at(5, 1), at(2, 7)]).unwrap();
    let live = [at(2, 7), at(5, 1)];
    assert_eq!(rebuilt.live(), live);
    for (rows, expected) in [
        (vec![at(1, 0), at(9, 1)], (RefusalKind::NoSuchId, 1)),
        (vec![at(1, 0), at(1, 1)], (RefusalKind::RepeatedId, 1)),
        (vec![at(1, 8)], (RefusalKind::OutOfRange, 0)),
        (vec![at(1, 0), at(2, 0)], (RefusalKind::RepeatedLocation, 1)),
    ] {
        assert_eq!(refusal(rebuilt.rebuild(&rows)), expected);
        assert_eq!(rebuilt.live(), live);
    }
    assert_eq!(refusal(rebuilt.objects_to_defrag(0.0)), (RefusalKind::RatioOutOfRange, 0));
    assert_eq!(refusal(rebuilt.truncation(78, 80)), (RefusalKind::OutOfRange, 0));
    assert_eq!(refusal(rebuilt.cut_done(3, 80)), (RefusalKind::NothingToCut, 0));
    rebuilt.fresh();
    assert_eq!((rebuilt.live(), rebuilt.stats()), (vec![], AllocatorStats::default()));
}

#[test]
fn a_row_carries_what_the_last_committed_store_said() {
    let mut kiosk = Store::new(9, 8).unwrap();
    let id = kiosk.allocate_object_id().unwrap();
    let in_collection = |collection| [store(id, 3).carrying(Carried::of_collection(collection))];
    let collection = |kiosk: &Store| kiosk.find(id).map(|found| found.carried.collection);
    kiosk.offer(&in_collection(u64::MAX)).unwrap();
    assert_eq!(refusal(collection(&kiosk)), (RefusalKind::NoSuchId, 0));
    kiosk.commit().unwrap();
    assert_eq!(collection(&kiosk), Ok(u64::MAX));
    kiosk.offer(&in_collection(7)).unwrap();
    assert_eq!(collection(&kiosk), Ok(u64::MAX));
    kiosk.abandon().unwrap();
    assert_eq!(collection(&kiosk), Ok(u64::MAX));
    kiosk.offer(&in_collection(8)).unwrap();
    kiosk.commit().unwrap();
    kiosk.release().unwrap();
    assert_eq!(collection(&kiosk), Ok(8));
    // Stored anew without a word about it, it carries the default.
    kiosk.offer(&[store(id, 3)]).unwrap();
    kiosk.commit().unwrap();
    assert_eq!(collection(&kiosk), Ok(0));
}

/// Every byte a value of its own, none of them zero.
const LONG: [u8; 256] = {
    let mut bytes = [255; 256];
    let mut at = 0;
    while at < 255 {
        bytes[at] = at as u8 + 1;
        at += 1;
    }
    bytes
};

fn keyed(id: u64, key: &[u8]) -> Update<'_> {
    store(id, 3).carrying(Carried::of_collection(!id).with_key(key))
}

#[test]
fn keys_of_every_length() {
    let mut kiosk = Store::new(9, 8).unwrap();
    let id = kiosk.allocate_object_id().unwrap();
    let at = SlabAddress::from_slab_slot(0, 0).unwrap();
    for length in 0..=Carried::MOST_KEY {
        // The slot alternates between the first two; the key has no say in it.
        let placed = kiosk.offer(&[keyed(id, &LONG[..length])]).unwrap();
        assert_eq!(placed[0].unwrap().slot(), length % 2);
        kiosk.commit().unwrap();
        kiosk.release().unwrap();
        let found = kiosk.find(id).unwrap();
        assert_eq!((found.carried.collection, found.carried.key), (!id, &LONG[..length]));
        // In the store's own bytes: twice the same place, and the same as the rows'.
        assert_eq!(found.carried.key.as_ptr(), kiosk.find(id).unwrap().carried.key.as_ptr());
        assert_eq!(found.carried.key.as_ptr(), kiosk.live()[0].carried.key.as_ptr());
        let mut rebuilt = Store::new(9, 8).unwrap();
        rebuilt.rebuild(&[Row::new(id, at).carrying(found.carried)]).unwrap();
        assert_eq!(rebuilt.find(id).unwrap().carried, found.carried);
    }
    let mut before = kiosk.snapshot().unwrap();
    // 256 in one byte would be 0.
    for length in [65, 66, 127, 128, 255, 256, 257, 320, 1 << 16, (1 << 16) + 3, 1 << 20] {
        let key = vec![7; length];
        assert_eq!(refusal(kiosk.offer(&[keyed(id, &key)])), (RefusalKind::KeyTooLong, 0));
        let row = Row::new(id, at).carrying(Carried::default().with_key(&key));
        assert_eq!(refusal(kiosk.rebuild(&[row])), (RefusalKind::KeyTooLong, 0));
        assert_eq!(kiosk.snapshot().unwrap(), before);
    }
    // A shorter key leaves nothing of a longer one behind it.
    kiosk.offer(&[keyed(id, b"x")]).unwrap();
    kiosk.commit().unwrap();
    kiosk.release().unwrap();
    before = kiosk.snapshot().unwrap();
    assert_eq!((before[32], before[33], before[34..508].iter().max()), (1, b'x', Some(&0)));
}

#[test]
fn a_key_is_refused_in_its_turn() {
    let mut small = Store::new(4, 1).unwrap();
    (0..3).for_each(|_| { small.allocate_object_id().unwrap(); });
    let long = |id, length| Update::store(id, length).carrying(Carried::default().with_key(&LONG));
    for (batch, expected) in [
        // Before it an id that is not held, and one that came before.
        (vec![store(1, 3), long(4, 3)], (RefusalKind::NoSuchId, 1)),
        (vec![store(1, 3), long(1, 3)], (RefusalKind::RepeatedId, 1)),
        // After it an object that is too large, and a slab that has too few slots.
        (vec![store(1, 3), long(2, u64::MAX)], (RefusalKind::KeyTooLong, 1)),
        (vec![store(1, 3), store(2, 3), long(3, 3)], (RefusalKind::KeyTooLong, 2)),
        // An earlier update's refusals come first, whichever they are.
        (vec![store(1, u64::MAX), long(2, 3)], (RefusalKind::TooLarge, 0)),
        (vec![long(1, 3), store(4, 3)], (RefusalKind::KeyTooLong, 0)),
        (vec![long(1, 3), long(2, 3)], (RefusalKind::KeyTooLong, 0)),
        (vec![long(1, 3); 257], (RefusalKind::TooMany, 0)),
        // A Free has no key.
        (vec![Update::free(1).carrying(Carried::default().with_key(&LONG)), store(2, 3), store(3, 3)], (RefusalKind::NoneFree, 0)),
    ] {
        assert_eq!(refusal(small.offer(&batch)), expected);
    }
    let row = |id, slot, key| Row::new(id, SlabAddress::from_slab_slot(3, slot).unwrap()).carrying(Carried::default().with_key(key));
    let mut rebuilt = Store::new(9, 8).unwrap();
    for (rows, expected) in [
        (vec![row(1, 0, b""), row(9, 1, &LONG)], (RefusalKind::NoSuchId, 1)),
        (vec![row(1, 0, b""), row(1, 1, &LONG)], (RefusalKind::RepeatedId, 1)),
        (vec![row(1, 0, b""), row(2, 8, &LONG)], (RefusalKind::OutOfRange, 1)),
        (vec![row(1, 0, b""), row(2, 0, &LONG)], (RefusalKind::RepeatedLocation, 1)),
        (vec![row(1, 0, b""), row(2, 1, &LONG), row(2, 1, b"")], (RefusalKind::KeyTooLong, 1)),
        (vec![row(1, 0, &LONG), row(0, 1, &LONG)], (RefusalKind::KeyTooLong, 0)),
    ] {
        assert_eq!(refusal(rebuilt.rebuild(&rows)), expected);
        assert_eq!(rebuilt.live(), []);
    }
}

#[test]
fn keys_follow_the_batch() {
    let mut kiosk = Store::new(9, 8).unwrap();
    let ids: Vec<u64> = (0..3).map(|_| kiosk.allocate_object_id().unwrap()).collect();
    fn keys(kiosk: &Store) -> Vec<(u64, &[u8])> {
        kiosk.live().into_iter().map(|row| (row.id, row.carried.key)).collect()
    }
    // As often as there are updates; a key may be any other's.
    kiosk.offer(&[keyed(ids[2], b"lamp"), keyed(ids[0], b"lamp"), keyed(ids[1], b"lamp\0")]).unwrap();
    assert_eq!(keys(&kiosk), []);
    kiosk.commit().unwrap();
    assert_eq!(keys(&kiosk), [(1, &b"lamp"[..]), (2, b"lamp\0"), (3, b"lamp")]);
    kiosk.offer(&[keyed(ids[1], b"other")]).unwrap();
    kiosk.abandon().unwrap();
    assert_eq!(kiosk.find(ids[1]).unwrap().carried.key, b"lamp\0");
    kiosk.offer(&[Update::free(ids[0]), keyed(ids[1], b"")]).unwrap();
    kiosk.commit().unwrap();
    kiosk.release().unwrap();
    assert_eq!(keys(&kiosk), [(2, &b""[..]), (3, b"lamp")]);
    // An id that is given anew has nothing of the one before.
    assert_eq!(kiosk.allocate_object_id(), Ok(1));
    kiosk.offer(&[store(1, 3)]).unwrap();
    kiosk.commit().unwrap();
    assert_eq!(kiosk.find(1).unwrap().carried, Carried::default());
}

/// The tables of a store of ids 1 and 2 and one slot in each slab, to lend to the exported calls themselves what the crate does not say.
#[derive(Clone)]
struct Lent {
    id_marks: [u8; 3],
    locations: [u64; 3],
    slot_marks: [u8; 78],
    owners: [u64; 78],
    batch: [u64; 513],
    tallies: [u64; 473],
    carried: Vec<u8>,
}

/// The bytes of a row, and the entries of `carried`.
const ROW: usize = 80;
const ROWS: usize = 3 + 256;

macro_rules! lend {
    ($lent:ident, $call:ident $(, $word:expr)*) => {
        unsafe {
            raw::$call(
                3, 1, $lent.id_marks.as_mut_ptr(), 3, $lent.locations.as_mut_ptr(), 3, $lent.slot_marks.as_mut_ptr(), 78,
                $lent.owners.as_mut_ptr(), 78, $lent.batch.as_mut_ptr(), 513, $lent.tallies.as_mut_ptr(), 473,
                $lent.carried.as_mut_ptr(), $lent.carried.len() $(, $word)*
            )
        }
    };
}

impl Lent {
    fn new() -> Lent {
        Lent {
            id_marks: [9; 3], locations: [9; 3], slot_marks: [9; 78], owners: [9; 78], batch: [9; 513], tallies: [9; 473],
            carried: vec![9; ROWS * ROW],
        }
    }

    /// Of one row, of id 2 in the first slot, that carries this.
    fn rebuild(&mut self, row: &[u8]) -> u64 {
        lend!(self, wentuhoro_rebuild, [2].as_ptr(), 1, [1 << 56].as_ptr(), 1, row.as_ptr(), row.len())
    }

    /// One update of id 2, an object of 100 bytes where it is stored.
    fn offer(&mut self, byte: u8, row: &[u8]) -> u64 {
        let (row_len, mut placed) = (row.len(), 0);
        lend!(self, wentuhoro_offer, [2].as_ptr(), 1, [byte].as_ptr(), 1, [100].as_ptr(), 1, row.as_ptr(), row_len, &mut placed, 1)
    }

    fn commit(&mut self) -> u64 {
        lend!(self, wentuhoro_commit)
    }

    fn row(&self, at: usize) -> &[u8] {
        &self.carried[at * ROW..(at + 1) * ROW]
    }
}

/// A key that is said to be so long; all bytes are lent, and none is zero.
fn brought(length: u64) -> Vec<u8> {
    [&[0xEE; 8], &length.to_le_bytes()[..], &[0xDD; 64]].concat()
}

fn kept(length: usize) -> Vec<u8> {
    [&[0xEE; 8], &[length as u8][..], &vec![0xDD; length], &vec![0; 71 - length]].concat()
}

#[test]
fn keys_that_no_slice_can_say() {
    for length in [65, 255, 256, 256 + 3, 1 << 16, 1 << 32, (1 << 32) + 3, 1 << 56, (1 << 56) + 64, 1 << 63, u64::MAX - 1, u64::MAX] {
        let mut lent = Lent::new();
        assert_eq!(lent.rebuild(&brought(length)), 21, "{length}");
        assert_eq!(lent.carried, vec![9; ROWS * ROW]);
        assert_eq!(lent.rebuild(&brought(64)), 0);
        let before = lent.carried.clone();
        assert_eq!(lent.offer(1, &brought(length)), 21, "{length}");
        assert_eq!(lent.carried, before);
        // A Free's is not looked at, and keeps zeros, also where the batch before kept a key.
        assert_eq!((lent.offer(1, &brought(64)), lent.commit()), (0, 0));
        assert_eq!((lent.offer(0, &brought(length)), lent.row(3)), (0, &[0; ROW][..]), "{length}");
        assert_eq!((lent.commit(), lent.row(2)), (0, &[0; ROW][..]));
    }
}

#[test]
fn any_byte_but_0_stores() {
    for byte in 0..=u8::MAX {
        let mut lent = Lent::new();
        assert_eq!(lent.rebuild(&brought(1)), 0);
        let (refused, row) = if byte == 0 { (0, vec![0; ROW]) } else { (21, kept(2)) };
        assert_eq!(lent.clone().offer(byte, &brought(65)), refused, "{byte}");
        assert_eq!((lent.offer(byte, &brought(2)), lent.row(3)), (0, &row[..]), "{byte}");
        assert_eq!((lent.commit(), lent.row(2)), (0, &row[..]), "{byte}");
    }
}

#[test]
fn behind_a_key_nothing_is_stored() {
    for length in [0, 1, 63, 64] {
        let mut lent = Lent::new();
        assert_eq!((lent.rebuild(&brought(length as u64)), lent.row(2)), (0, &kept(length)[..]));
        assert!(lent.carried[..2 * ROW].iter().chain(&lent.carried[3 * ROW..]).all(|byte| *byte == 0));
        for other in [64, 0, 63, 1] {
            assert_eq!((lent.offer(1, &brought(other as u64)), lent.row(3)), (0, &kept(other)[..]));
            assert_eq!((lent.commit(), lent.row(2)), (0, &kept(other)[..]));
            assert_eq!(lent.rebuild(&brought(length as u64)), 0);
        }
    }
}

#[test]
fn rows_have_one_width() {
    // None, eight bytes as before, one too few, one too many, and two rows.
    for width in [0, 8, 79, 81, 160] {
        let mut lent = Lent::new();
        assert_eq!(lent.rebuild(&vec![0; width]), 1, "{width}");
        assert_eq!(lent.rebuild(&brought(0)), 0);
        assert_eq!(lent.offer(1, &vec![0; width]), 1, "{width}");
        lent.carried = vec![0; ROWS * width];
        assert_eq!((lent.rebuild(&brought(0)), lent.offer(1, &brought(0)), lent.commit()), (1, 1, 1), "{width}");
    }
}

/// A store of one object in slot `tip - 1` of a slab whose high mark is `high`, a slot that is free again.
fn once_larger(slab: usize, tip: usize, high: usize) -> Store {
    let mut store = Store::new(3, high + 1).unwrap();
    let at = |slot| SlabAddress::from_slab_slot(slab, slot).unwrap();
    store.rebuild(&[Row::new(1, at(tip - 1)), Row::new(2, at(high))]).unwrap();
    assert_eq!(store.truncation(slab, 86), Ok(None));
    store.offer(&[Update::free(2)]).unwrap();
    store.commit().unwrap();
    store.release().unwrap();
    store
}

#[test]
fn cuts_are_whole_slots_and_say_what_they_give_back() {
    const LARGEST: u64 = 17_179_869_184;
    for (slab, tip, high, t, expected) in [
        // P10, and 29 bytes that rounding up takes back.
        (0, 40, 99, 80, Some((2_944, 3_456))),
        (0, 17, 99, 80, Some((1_280, 5_120))),
        (0, 16, 99, 80, Some((1_024, 5_376))),
        (0, 17, 19, 86, None),
        (0, 17, 20, 86, Some((1_280, 64))),
        // One slot in use: 1 percent of 100, less of 101.
        (0, 1, 99, 1, None),
        (0, 1, 100, 1, Some((64, 6_400))),
        // The largest slots, as many as there can be.
        (77, 56_360, 65_535, 86, Some((64_814 * LARGEST, 722 * LARGEST))),
        (77, 56_361, 65_535, 86, None),
        (77, 1, 65_535, 1, Some((LARGEST, 65_535 * LARGEST))),
    ] {
        let mut store = once_larger(slab, tip, high);
        let cut = expected.map(|(length, given_back)| Cut { length, given_back });
        assert_eq!(store.truncation(slab, t), Ok(cut), "tip {tip}, high mark {high}, t {t}");
        if cut.is_some() {
            store.cut_done(slab, t).unwrap();
        }
        // Nothing is left to cut, or never was.
        assert_eq!(refusal(store.cut_done(slab, t)), (RefusalKind::NothingToCut, 0));
    }
}
