//! Reasons through the crate: the edges of the rule, random stores beside what the test itself counts, and the sentences; and through the exported call
//! itself, what the crate does not say.
use std::collections::{BTreeMap, BTreeSet};

use wentuhoro::ReasonKind::{BeforeLine, FullEnough, Listed, NotStored};
use wentuhoro::{raw, Reason, ReasonKind, Refusal, RefusalKind, Row, SlabAddress, Standing, Store, Update};

fn at(slab: usize, slot: usize) -> SlabAddress {
    SlabAddress::from_slab_slot(slab, slot).unwrap()
}

/// Objects 1, 2 and so on in these slots of slab 3.
fn slab_of(slots: &[usize]) -> Store {
    let mut store = Store::new(100, 100).unwrap();
    store.rebuild(&slots.iter().zip(1..).map(|(slot, id)| Row::new(id, at(3, *slot))).collect::<Vec<_>>()).unwrap();
    store
}

/// Document 01's whole run up to its release: objects 1 to 8 in slots 0 to 7 of slab 0, of which 1, 2, 3, 5 and 7 are freed.
fn whole_run() -> Store {
    let mut store = Store::new(9, 8).unwrap();
    let ids: Vec<u64> = (0..8).map(|_| store.allocate_object_id().unwrap()).collect();
    changed(&mut store, &ids.iter().map(|&id| Update::store(id, 3)).collect::<Vec<_>>());
    changed(&mut store, &[1, 2, 3, 5, 7].map(Update::free));
    store
}

fn changed(store: &mut Store, updates: &[Update]) {
    store.offer(updates).unwrap();
    store.commit().unwrap();
}

fn why(store: &Store, id: u64, ratio: f32) -> ReasonKind {
    let reason = store.reason_for_object(id, ratio).unwrap();
    assert_eq!((reason.id, reason.target_fill_ratio), (id, ratio));
    assert_eq!(reason.is_listed(), matches!(reason.kind, Listed { .. }));
    let (standing, line) = match reason.kind {
        NotStored => (None, None),
        FullEnough(standing) => (Some(standing), None),
        BeforeLine { standing, line } | Listed { standing, line } => (Some(standing), Some(line)),
    };
    assert_eq!((reason.standing(), reason.line()), (standing, line));
    reason.kind
}

fn refusal(answer: Result<Reason, Refusal>) -> (RefusalKind, usize) {
    let refusal = answer.unwrap_err();
    (refusal.kind, refusal.index)
}

/// Document 01's rule, in f32: the line of a slab, where it is not full enough.
fn line_of(live: usize, tip: usize, ratio: f32) -> Option<usize> {
    let from = (live as f32 / ratio) as usize;
    (ratio > live as f32 / tip as f32 && from < tip).then_some(from)
}

fn by_line(standing: Standing, line: Option<usize>) -> ReasonKind {
    match line {
        None => FullEnough(standing),
        Some(line) if standing.location.slot() < line => BeforeLine { standing, line },
        Some(line) => Listed { standing, line },
    }
}

#[test]
fn an_unknown_id_is_a_reason() {
    let store = slab_of(&[7]);
    let ids = store.ids() as u64;
    // No id; ids that are not held; the capacity and more; and ids that are 1 where a number is cut short.
    for id in [0, 2, ids - 1, ids, ids + 1, (1 << 16) + 1, (1 << 32) + 1, (1 << 56) + 1, (1 << 63) + 1, u64::MAX - 1, u64::MAX] {
        for ratio in [f32::from_bits(1), 0.1, 1.0] {
            assert_eq!(why(&store, id, ratio), NotStored, "{id}");
        }
    }
    assert_ne!(why(&store, 1, 0.1), NotStored);
}

#[test]
fn the_last_id_and_the_last_slot() {
    let mut store = Store::new(65_536, 65_536).unwrap();
    let [first, last] = [at(0, 0), at(77, 65_535)];
    store.rebuild(&[Row::new(1, first), Row::new(65_535, last)]).unwrap();
    assert_eq!(why(&store, 1, 1.0), FullEnough(Standing { location: first, smaller: 0, live: 1, tip: 1 }));
    let standing = Standing { location: last, smaller: 0, live: 1, tip: 65_536 };
    // One in 65,536 is exact, and the next ratio asks for more.
    let exact = 1.0 / 65_536.0f32;
    assert_eq!(why(&store, 65_535, exact), FullEnough(standing));
    assert_eq!(why(&store, 65_535, f32::from_bits(exact.to_bits() + 1)), Listed { standing, line: 65_535 });
    assert_eq!(why(&store, 65_535, 1.0), Listed { standing, line: 1 });
    assert_eq!([65_536, 65_537, 131_071].map(|id| why(&store, id, 1.0)), [NotStored; 3]);
    // Every slot below the last.
    let all: Vec<Row> = (1..65_536).map(|id| Row::new(id, at(77, id as usize))).collect();
    store.rebuild(&all).unwrap();
    let standing = Standing { location: last, smaller: 65_534, live: 65_535, tip: 65_536 };
    assert_eq!(why(&store, 65_535, 1.0), Listed { standing, line: 65_535 });
    let before = Standing { location: at(77, 65_534), smaller: 65_533, ..standing };
    assert_eq!(why(&store, 65_534, 1.0), BeforeLine { standing: before, line: 65_535 });
}

#[test]
fn every_edge_of_the_rule() {
    let bits = f32::from_bits;
    let nine = [0, 1, 2, 3, 4, 5, 6, 7, 9];
    for (slots, ratio, line) in [
        // Slots 3 and 4 are the last before the line, and the line.
        (&[3, 4, 7][..], 0.75, Some(4)),
        (&[3, 4, 7], 0.5, Some(6)),
        (&[3, 4, 7], 1.0, Some(3)),
        // Filled to the ratio, and a little less.
        (&[3, 4, 7], 0.375, None),
        (&[3, 4, 7], bits(0x3ec0_0001), Some(7)),
        (&[3, 4, 7], bits(0x3ebf_ffff), None),
        (&[3, 4, 7], f32::MIN_POSITIVE, None),
        (&[3, 4, 7], bits(1), None),
        // One slot, and no slot free.
        (&[0], 1.0, None),
        (&[0], bits(1), None),
        (&[2, 0, 1], 1.0, None),
        // One object above free slots.
        (&[1], 0.5, None),
        (&[1], bits(0x3f00_0001), Some(1)),
        (&[99], 1.0, Some(1)),
        // 9 / r is rounded to 10, which is the tip; one ratio on it is below.
        (&nine, 0.9, None),
        (&nine, bits(0x3f66_6667), None),
        (&nine, bits(0x3f66_6668), Some(9)),
        // 1 / 7 is rounded up to this ratio, at which 1 / r is cut to 6.
        (&[6], bits(0x3e12_4925), None),
        (&[6], bits(0x3e12_4926), Some(6)),
        // 3 / r is rounded up to 10, and cut to that: slot 9 stays.
        (&[9, 10, 11], 0.3, Some(10)),
    ] {
        let store = slab_of(slots);
        let (live, tip) = (slots.len(), slots.iter().max().unwrap() + 1);
        let mut listed = vec![];
        for (&slot, id) in slots.iter().zip(1..) {
            let smaller = slots.iter().filter(|other| **other < slot).count();
            let expected = by_line(Standing { location: at(3, slot), smaller, live, tip }, line);
            assert_eq!(why(&store, id, ratio), expected, "slot {slot} of {slots:?}, ratio {ratio}");
            listed.extend(matches!(expected, Listed { .. }).then_some((id, at(3, slot))));
        }
        listed.sort_by_key(|(_, location)| *location);
        assert_eq!(store.objects_to_defrag(ratio), Ok(listed));
    }
}

#[test]
fn pending_slots_are_taken() {
    let mut store = whole_run();
    let standing = |slot, smaller, live, tip| Standing { location: at(0, slot), smaller, live, tip };
    for ratio in [0.75, 1.0] {
        assert_eq!(why(&store, 4, ratio), FullEnough(standing(3, 3, 8, 8)));
        assert_eq!(why(&store, 8, ratio), FullEnough(standing(7, 7, 8, 8)));
    }
    store.release().unwrap();
    assert_eq!(why(&store, 4, 0.75), BeforeLine { standing: standing(3, 0, 3, 8), line: 4 });
    assert_eq!(why(&store, 6, 0.75), Listed { standing: standing(5, 1, 3, 8), line: 4 });
    assert_eq!(why(&store, 8, 0.75), Listed { standing: standing(7, 2, 3, 8), line: 4 });
    // A larger slot that is pending is no smaller one, and keeps the tip.
    changed(&mut store, &[Update::free(8)]);
    assert_eq!(why(&store, 6, 0.75), Listed { standing: standing(5, 1, 3, 8), line: 4 });
    store.release().unwrap();
    assert_eq!(why(&store, 6, 0.75), Listed { standing: standing(5, 1, 2, 6), line: 2 });
    // An object that is stored anew leaves its old slot pending.
    changed(&mut store, &[Update::store(4, 3)]);
    assert_eq!(why(&store, 4, 0.75), BeforeLine { standing: standing(0, 0, 3, 6), line: 4 });
    assert_eq!(why(&store, 6, 0.75), Listed { standing: standing(5, 2, 3, 6), line: 4 });
}

#[test]
fn a_reason_follows_commits_alone() {
    let mut store = Store::new(9, 8).unwrap();
    let id = store.allocate_object_id().unwrap();
    // Held, and never stored.
    assert_eq!(why(&store, id, 1.0), NotStored);
    store.offer(&[Update::store(id, 3)]).unwrap();
    assert_eq!(refusal(store.reason_for_object(id, 1.0)), (RefusalKind::BatchOpen, 0));
    store.abandon().unwrap();
    assert_eq!(why(&store, id, 1.0), NotStored);
    changed(&mut store, &[Update::store(id, 3)]);
    assert_eq!(why(&store, id, 1.0), FullEnough(Standing { location: at(0, 0), smaller: 0, live: 1, tip: 1 }));
    // Pending, free, and held anew without an object.
    changed(&mut store, &[Update::free(id)]);
    assert_eq!(why(&store, id, 1.0), NotStored);
    store.release().unwrap();
    assert_eq!(why(&store, id, 1.0), NotStored);
    assert_eq!(store.allocate_object_id(), Ok(id));
    assert_eq!(why(&store, id, 1.0), NotStored);
}

#[test]
fn refusals_come_in_their_order() {
    let mut store = whole_run();
    let bad = [0.0, -0.0, -f32::from_bits(1), -0.75, f32::from_bits(0x3f80_0001), 2.0, f32::INFINITY, f32::NEG_INFINITY, f32::NAN, -f32::NAN];
    let ids = [8, 1, 0, 9, u64::MAX];
    for id in ids {
        for ratio in bad {
            assert_eq!(refusal(store.reason_for_object(id, ratio)), (RefusalKind::RatioOutOfRange, 0), "{ratio}");
        }
        assert!(store.reason_for_object(id, f32::from_bits(1)).is_ok() && store.reason_for_object(id, 1.0).is_ok());
    }
    // An empty batch is open, too.
    store.offer(&[]).unwrap();
    for id in ids {
        for ratio in bad.into_iter().chain([0.75]) {
            assert_eq!(refusal(store.reason_for_object(id, ratio)), (RefusalKind::BatchOpen, 0), "{ratio}");
        }
    }
    store.commit().unwrap();
    assert!(store.reason_for_object(8, 0.75).is_ok());
}

/// Chances that are the same in every run.
struct Chance(u64);

impl Chance {
    fn below(&mut self, most: usize) -> usize {
        self.0 = self.0.wrapping_mul(6_364_136_223_846_793_005).wrapping_add(1_442_695_040_888_963_407);
        (self.0 >> 33) as usize % most
    }
}

const IDS: usize = 40;
const SLOTS: usize = 24;

/// What the test itself counts of a store: the ids that are held, where the objects lie, and which slots are held or pending.
#[derive(Default)]
struct Counted {
    held: BTreeSet<u64>,
    objects: BTreeMap<u64, SlabAddress>,
    taken: BTreeSet<SlabAddress>,
}

impl Counted {
    fn committed(&mut self, updates: &[Update], placed: &[Option<SlabAddress>]) {
        for (update, placed) in updates.iter().zip(placed) {
            match placed {
                Some(location) => {
                    self.objects.insert(update.id(), *location);
                    self.taken.insert(*location);
                }
                None => {
                    self.objects.remove(&update.id());
                    self.held.remove(&update.id());
                }
            }
        }
    }

    fn released(&mut self) {
        self.taken = self.objects.values().copied().collect();
    }

    fn reason(&self, id: u64, ratio: f32) -> ReasonKind {
        let Some(&location) = self.objects.get(&id) else {
            return NotStored;
        };
        let slab: Vec<usize> = self.taken.iter().filter(|other| other.slab() == location.slab()).map(|other| other.slot()).collect();
        let smaller = slab.iter().filter(|slot| **slot < location.slot()).count();
        let (live, tip) = (slab.len(), slab.last().unwrap() + 1);
        by_line(Standing { location, smaller, live, tip }, line_of(live, tip, ratio))
    }
}

/// The ratios that are asked about: some that counts of so few slots meet, their neighbours, and the ends.
fn ratios() -> Vec<f32> {
    let met = [0.25f32, 1.0 / 3.0, 0.5, 2.0 / 3.0, 0.75, 0.8, 0.9];
    let near = met.iter().flat_map(|ratio| [ratio.to_bits() - 1, ratio.to_bits(), ratio.to_bits() + 1].map(f32::from_bits));
    near.chain([f32::from_bits(1), 0.01, 1.0]).collect()
}

fn reasons(store: &Store, ratio: f32) -> Vec<ReasonKind> {
    (0..IDS as u64 + 2).map(|id| why(store, id, ratio)).collect()
}

/// Holds every id's reason to what was counted, to the defrag list and to lookups; how often each reason was given.
fn compare(store: &Store, counted: &Counted, given: &mut [usize; 4]) {
    for ratio in ratios() {
        let mut listed = vec![];
        for (id, reason) in reasons(store, ratio).into_iter().enumerate() {
            let id = id as u64;
            assert_eq!(reason, counted.reason(id, ratio), "object {id}, ratio {ratio}");
            assert_eq!(reason == NotStored, store.find(id).is_err_and(|refusal| refusal.kind == RefusalKind::NoSuchId), "object {id}");
            let number = match reason {
                NotStored => 0,
                FullEnough(_) => 1,
                BeforeLine { .. } => 2,
                Listed { standing, .. } => {
                    listed.push((id, standing.location));
                    3
                }
            };
            given[number] += 1;
        }
        listed.sort_by_key(|(_, location)| *location);
        assert_eq!(store.objects_to_defrag(ratio), Ok(listed), "ratio {ratio}");
    }
}

/// Updates of different ids among those held, most of them Stores, in two slabs.
fn some_updates(counted: &Counted, chance: &mut Chance) -> Vec<Update<'static>> {
    let mut ids: Vec<u64> = counted.held.iter().copied().collect();
    let count = chance.below(9).min(ids.len());
    let mut update = || {
        let id = ids.swap_remove(chance.below(ids.len()));
        match chance.below(6) {
            0 => Update::free(id),
            other => Update::store(id, if other == 1 { 100 } else { 3 }),
        }
    };
    (0..count).map(|_| update()).collect()
}

#[test]
fn random_stores() {
    let (mut given, mut with_pending, mut full) = ([0; 4], 0, 0);
    for seed in 0..24 {
        let (mut store, mut counted, mut chance) = (Store::new(IDS, SLOTS).unwrap(), Counted::default(), Chance(seed));
        for _ in 0..80 {
            match chance.below(8) {
                0 | 1 => (0..3).for_each(|_| counted.held.extend(store.allocate_object_id())),
                2 => {
                    store.release().unwrap();
                    counted.released();
                }
                _ => {
                    let updates = some_updates(&counted, &mut chance);
                    match store.offer(&updates) {
                        Err(refusal) => {
                            assert_eq!(refusal.kind, RefusalKind::NoneFree);
                            full += 1;
                        }
                        Ok(_) if chance.below(4) == 0 => store.abandon().unwrap(),
                        Ok(placed) => {
                            store.commit().unwrap();
                            counted.committed(&updates, &placed);
                        }
                    }
                }
            }
            with_pending += usize::from(counted.taken.len() > counted.objects.len());
            compare(&store, &counted, &mut given);
        }
        at_rest(store, counted);
    }
    assert!(given.iter().all(|times| *times > 10_000) && with_pending > 100 && full > 0, "{given:?}, {with_pending}, {full}");
}

/// Ids without an object are freed, and all that is pending is released: a store that is opened from the snapshot gives the same reasons.
fn at_rest(mut store: Store, mut counted: Counted) {
    let frees: Vec<Update> = counted.held.iter().filter(|id| !counted.objects.contains_key(id)).map(|&id| Update::free(id)).collect();
    changed(&mut store, &frees);
    store.release().unwrap();
    counted.released();
    compare(&store, &counted, &mut [0; 4]);
    let opened = Store::from_snapshot(IDS, SLOTS, &store.snapshot().unwrap()).unwrap();
    for ratio in ratios() {
        assert_eq!(reasons(&opened, ratio), reasons(&store, ratio), "ratio {ratio}");
    }
}

/// The sentence of an object that stands so in its slab, by the line where there is one.
fn sentence(id: u64, (slab, slot): (usize, usize), [smaller, live, tip]: [usize; 3], ratio: f32, line: Option<usize>) -> String {
    let kind = by_line(Standing { location: at(slab, slot), smaller, live, tip }, line);
    Reason { id, target_fill_ratio: ratio, kind }.to_string()
}

#[test]
fn sentences() {
    let nothing = |id| Reason { id, target_fill_ratio: 0.75, kind: NotStored }.to_string();
    assert_eq!(nothing(9), "object 9: no such stored object");
    assert_eq!(nothing(u64::MAX), "object 18446744073709551615: no such stored object");
    for (shown, expected) in [
        (
            sentence(4, (0, 3), [3, 7, 8], 0.75, None),
            "object 4 (slab 0, slot 3): stays, since 7 of the 8 slots below the tip are in use, which is full enough (ratio 0.75); 3 smaller slots are taken",
        ),
        (
            sentence(65_535, (77, 65_535), [65_535, 65_536, 65_536], 1.0, None),
            "object 65535 (slab 77, slot 65535): stays, since 65536 of the 65536 slots below the tip are in use, which is full enough (ratio 1); 65535 smaller slots are taken",
        ),
        (
            sentence(1, (9, 0), [0, 1, 1], 1.0, None),
            "object 1 (slab 9, slot 0): stays, since the only slot below the tip is in use, which is full enough (ratio 1); no smaller slot is taken",
        ),
        (
            sentence(2, (3, 1), [0, 1, 2], 0.5, None),
            "object 2 (slab 3, slot 1): stays, since 1 of the 2 slots below the tip is in use, which is full enough (ratio 0.5); no smaller slot is taken",
        ),
        (
            sentence(2, (3, 1), [1, 2, 2], 0.9, None),
            "object 2 (slab 3, slot 1): stays, since 2 of the 2 slots below the tip are in use, which is full enough (ratio 0.9); 1 smaller slot is taken",
        ),
        (
            sentence(4, (0, 3), [0, 3, 8], 0.75, Some(4)),
            "object 4 (slab 0, slot 3): stays, since its slot is before the line, though 3 of the 8 slots below the tip are in use (ratio 0.75, line 4); no smaller slot is taken",
        ),
        (
            sentence(4, (0, 3), [1, 4, 8], 0.8, Some(5)),
            "object 4 (slab 0, slot 3): stays, since its slot is before the line, though 4 of the 8 slots below the tip are in use (ratio 0.8, line 5); 1 smaller slot is taken",
        ),
        (
            sentence(4, (0, 3), [2, 5, 8], 0.9, Some(5)),
            "object 4 (slab 0, slot 3): stays, since its slot is before the line, though 5 of the 8 slots below the tip are in use (ratio 0.9, line 5); 2 smaller slots are taken",
        ),
        (
            sentence(8, (0, 7), [2, 3, 8], 0.75, Some(4)),
            "object 8 (slab 0, slot 7): moved, since 3 of the 8 slots below the tip are in use (ratio 0.75, line 4); 2 smaller slots are taken",
        ),
        (
            sentence(8, (0, 7), [1, 2, 8], 1.0 / 3.0, Some(6)),
            "object 8 (slab 0, slot 7): moved, since 2 of the 8 slots below the tip are in use (ratio 0.33333334, line 6); 1 smaller slot is taken",
        ),
        (
            sentence(8, (0, 7), [0, 1, 8], 0.75, Some(1)),
            "object 8 (slab 0, slot 7): moved, since 1 of the 8 slots below the tip is in use (ratio 0.75, line 1); no smaller slot is taken",
        ),
    ] {
        assert_eq!(shown, expected);
    }
}

/// The tables of a store of ids 1 to 4 and four slots in each slab, to lend to the exported call itself. Each has an entry more than is told, so that
/// it can be told to be too long.
#[derive(Clone, Debug, PartialEq)]
struct Lent {
    capacities: [usize; 2],
    id_marks: [u8; 6],
    locations: [u64; 6],
    slot_marks: [u8; 313],
    owners: [u64; 313],
    batch: [u64; 514],
    tallies: [u64; 474],
    /// As told: of the six tables, and of the values.
    lengths: [usize; 7],
}

/// Where slot 0 of slab 1 stands in the tables, and its packed location.
const FIRST: usize = 4;
const FIRST_LOCATION: u64 = 2 << 56;
/// Among the tallies: whether something of slab 1 is pending.
const WAITING: usize = 318;
/// What the values are before they are written.
const BEFORE: [u64; 8] = [!0; 8];

impl Lent {
    /// Objects 1, 2 and 3 in slots 0, 2 and 3 of slab 1.
    fn new() -> Lent {
        let mut lent = Lent {
            capacities: [5, 4],
            id_marks: [9; 6],
            locations: [9; 6],
            slot_marks: [9; 313],
            owners: [9; 313],
            batch: [9; 514],
            tallies: [9; 474],
            lengths: [5, 5, 312, 312, 513, 473, 7],
        };
        let locations = [0, 2, 3].map(|slot| FIRST_LOCATION + slot);
        let (mut carried, rows) = (vec![0; 80 * (5 + 256)], [0u8; 3 * 80]);
        let status = unsafe {
            raw::wentuhoro_rebuild(
                5, 4, lent.id_marks.as_mut_ptr(), 5, lent.locations.as_mut_ptr(), 5, lent.slot_marks.as_mut_ptr(), 312,
                lent.owners.as_mut_ptr(), 312, lent.batch.as_mut_ptr(), 513, lent.tallies.as_mut_ptr(), 473, carried.as_mut_ptr(),
                carried.len(), [1, 2, 3].as_ptr(), 3, locations.as_ptr(), 3, rows.as_ptr(), rows.len(),
            )
        };
        assert_eq!(status, 0);
        lent
    }

    /// The status, and the values with one more behind them.
    fn reason(&self, id: u64, ratio: f32) -> (u64, [u64; 8]) {
        let ([ids, slots], mut told, before) = (self.capacities, BEFORE, self.clone());
        let [id_marks, locations, slot_marks, owners, batch, tallies, values] = self.lengths;
        let status = unsafe {
            raw::wentuhoro_reason(
                ids, slots, self.id_marks.as_ptr(), id_marks, self.locations.as_ptr(), locations, self.slot_marks.as_ptr(), slot_marks,
                self.owners.as_ptr(), owners, self.batch.as_ptr(), batch, self.tallies.as_ptr(), tallies, id, ratio, told.as_mut_ptr(),
                values,
            )
        };
        assert_eq!(self, &before);
        (status, told)
    }

    /// The seven values where it is granted; where it is refused, nothing is written.
    fn told(&self, id: u64, ratio: f32) -> Result<[u64; 7], u64> {
        let (status, told) = self.reason(id, ratio);
        if status != 0 {
            assert_eq!(told, BEFORE);
            return Err(status);
        }
        assert_eq!(told[7], !0);
        Ok(told[..7].try_into().unwrap())
    }

    /// The ids of the defrag list.
    fn listed(&self, ratio: f32) -> Vec<u64> {
        let (mut ids, mut locations, mut count) = ([0; 4], [0; 4], 0);
        let status = unsafe {
            raw::wentuhoro_defrag(
                5, 4, self.locations.as_ptr(), 5, self.slot_marks.as_ptr(), 312, self.owners.as_ptr(), 312, self.batch.as_ptr(), 513,
                self.tallies.as_ptr(), 473, ratio, ids.as_mut_ptr(), 4, locations.as_mut_ptr(), 4, &mut count, 1,
            )
        };
        assert_eq!(status, 0);
        ids[..count as usize].to_vec()
    }
}

#[test]
fn seven_values_are_written_whole() {
    let lent = Lent::new();
    assert_eq!(lent.told(1, 1.0), Ok([2, 1, 0, 0, 3, 4, 3]));
    assert_eq!(lent.told(2, 1.0), Ok([2, 1, 2, 1, 3, 4, 3]));
    assert_eq!(lent.told(3, 1.0), Ok([3, 1, 3, 2, 3, 4, 3]));
    assert_eq!(lent.told(3, 0.75), Ok([1, 1, 3, 2, 3, 4, 0]));
    assert_eq!([0, 4, 5, u64::MAX].map(|id| lent.told(id, 1.0)), [Ok([0; 7]); 4]);
}

#[test]
fn tables_that_disagree() {
    // Of id 2: no such slab, or slot; another's slot, or one that nobody holds, or that is pending.
    let contradict: [fn(&mut Lent); 9] = [
        |lent| lent.locations[2] = 1,
        |lent| lent.locations[2] = 79 << 56,
        |lent| lent.locations[2] = FIRST_LOCATION + 4,
        |lent| lent.locations[2] = u64::MAX,
        |lent| lent.locations[2] = lent.locations[3],
        |lent| lent.locations[2] = FIRST_LOCATION + 1,
        |lent| lent.owners[FIRST + 2] = 1,
        |lent| lent.slot_marks[FIRST + 2] = 0,
        |lent| {
            lent.slot_marks[FIRST + 2] = 2;
            lent.tallies[WAITING] = 1;
        },
    ];
    for (case, contradict) in contradict.into_iter().enumerate() {
        for ratio in [0.1, 0.75, 1.0] {
            let mut lent = Lent::new();
            contradict(&mut lent);
            assert_eq!(lent.told(2, ratio), Err(13), "{case}");
            // The id is stored no more, and what its tables say of it does not matter.
            lent.id_marks[2] = 0;
            assert_eq!(lent.told(2, ratio), Ok([0; 7]), "{case}");
        }
    }
}

#[test]
fn tables_that_no_history_reaches() {
    // The defrag list does not ask whether an id is held: a lookup refuses this one with 8, and so nothing is stored.
    let mut lent = Lent::new();
    assert_eq!(lent.listed(1.0), [3]);
    lent.id_marks[3] = 0;
    assert_eq!((lent.listed(1.0), lent.told(3, 1.0)), (vec![3], Ok([0; 7])));
    // A mark that is none counts as held.
    let mut lent = Lent::new();
    lent.slot_marks[FIRST + 1] = 9;
    assert_eq!([1, 2, 3].map(|id| lent.told(id, 1.0)), [Ok([1, 1, 0, 0, 4, 4, 0]), Ok([1, 1, 2, 2, 4, 4, 0]), Ok([1, 1, 3, 3, 4, 4, 0])]);
}

#[test]
fn every_refusal_comes_before_those_after_it() {
    for id in [2, 4] {
        for faults in 0..16 {
            let has = |fault: usize| faults >> fault & 1 == 1;
            let mut lent = Lent::new();
            lent.lengths[6] += usize::from(has(0));
            lent.batch[0] = if has(1) { u64::MAX } else { 0 };
            let ratio = if has(2) { f32::NAN } else { 1.0 };
            if has(3) {
                lent.owners[FIRST + 2] = 4;
            }
            // Of id 4, which is unknown, no tables are looked at.
            let first = [(0, 1), (1, 11), (2, 14), (3, 13)].into_iter().find(|(fault, number)| has(*fault) && (*number != 13 || id == 2));
            let expected = first.map_or(Ok(if id == 2 { [2, 1, 2, 1, 3, 4, 3] } else { [0; 7] }), |(_, number)| Err(number));
            assert_eq!(lent.told(id, ratio), expected, "object {id}, faults {faults:b}");
        }
    }
    // Any word but 0 opens a batch.
    for word in [1, 2, 257, 258, 1 << 32, u64::MAX] {
        let mut lent = Lent::new();
        lent.batch[0] = word;
        assert_eq!(lent.told(2, 1.0), Err(11), "{word}");
    }
}

#[test]
fn wrong_lengths() {
    for id in [2, 4] {
        let answers = |change: &dyn Fn(&mut Lent)| {
            let mut lent = Lent::new();
            change(&mut lent);
            assert_eq!(lent.told(id, 1.0), Err(1));
        };
        for capacities in [[0, 4], [1, 4], [4, 4], [6, 4], [65_537, 4], [usize::MAX, 4], [5, 0], [5, 3], [5, 5], [5, 65_537], [5, usize::MAX]] {
            answers(&|lent| lent.capacities = capacities);
        }
        for list in 0..7 {
            answers(&|lent| lent.lengths[list] = 0);
            answers(&|lent| lent.lengths[list] -= 1);
            answers(&|lent| lent.lengths[list] += 1);
        }
    }
}
