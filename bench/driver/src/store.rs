//! The store's calls, ours on lent tables and the Rust's mapper, each given the same calls; what they answer is held to be the same.
use std::cell::RefCell;
use std::hint::black_box;

use crate::id_allocator::probe::set_free_and_tip;
use crate::original::Original;
use crate::ours::{brought, Batch, Ours, Page, CARRIED_WIDTH, KEY};
use crate::picture::Picture;
use crate::timing::{best, Usual};

pub const CAPACITY: usize = 65_536;
pub const BATCH: usize = 256;
/// As many objects as leave room for one more batch.
const FULL: usize = CAPACITY - 1 - BATCH;
const RATIO: f32 = 0.75;
/// Cycles before the first that is timed: a store that was just filled has its free slots in one run.
const BEFORE: u32 = 8;

pub struct Table<'a> {
    group: &'a str,
    picture: &'a mut Picture,
}

impl Table<'_> {
    pub fn new<'a>(picture: &'a mut Picture, group: &'a str, unit: &str) -> Table<'a> {
        println!("\n### {}{}: {unit}\n\n| | ours | the Rust | the Rust / ours |\n|---|--:|--:|--:|", group[..1].to_uppercase(), &group[1..]);
        Table { group, picture }
    }

    pub fn row(&mut self, what: &str, ours: f64, rust: f64) {
        println!("| {what} | {ours:.1} | {rust:.1} | {:.2} |", rust / ours);
        self.picture.bar(self.group, what, rust / ours);
    }

    /// What the Rust has not.
    pub fn ours_alone(&mut self, what: &str, ours: f64) {
        println!("| {what} | {ours:.1} | | |");
    }
}

/// 65279 as 65,279.
fn told(number: usize) -> String {
    match number {
        0..=999 => number.to_string(),
        _ => format!("{},{:03}", told(number / 1_000), number % 1_000),
    }
}

/// Chances that are the same in every run.
struct Chance(u64);

impl Chance {
    fn below(&mut self, most: usize) -> usize {
        self.0 = self.0.wrapping_mul(6_364_136_223_846_793_005).wrapping_add(1_442_695_040_888_963_407);
        (self.0 >> 33) as usize % most
    }

    /// So many different numbers from 1 on.
    fn some(&mut self, count: usize, most: usize) -> Vec<u64> {
        let mut all: Vec<u64> = (1..=most as u64).collect();
        (0..count).for_each(|at| { let other = at + self.below(most - at); all.swap(at, other) });
        all.truncate(count);
        all
    }
}

struct Both {
    ours: Ours,
    rust: Original,
}

impl Both {
    fn new(ids: usize, slots: usize) -> Both {
        Both { ours: Ours::new(ids, slots), rust: Original::new(&[], RATIO) }
    }

    /// So many objects, their lengths by their ids.
    fn with(ids: usize, slots: usize, objects: usize, length: impl Fn(u64) -> u64) -> Both {
        let mut both = Both::new(ids, slots);
        let ids: Vec<u64> = (0..objects).map(|_| both.new_id()).collect();
        for part in ids.chunks(BATCH) {
            both.batch(&mut Batch::stores(part.iter().copied(), |at| length(part[at])));
        }
        both
    }

    /// These objects in these places.
    fn of(ids: &[u64], locations: &[u64]) -> Both {
        let mut both = Both { ours: Ours::new(CAPACITY, CAPACITY), rust: Original::new(&Original::rows(ids, locations), RATIO) };
        both.ours.rebuild(ids, locations, &vec![0; ids.len() * CARRIED_WIDTH]);
        both
    }

    /// Every other slot of one slab is held, the last among them.
    fn half_empty() -> Both {
        let (ids, locations): (Vec<u64>, Vec<u64>) = (0..CAPACITY as u64 / 2).map(|at| (at + 1, (1 << 56) + 2 * at + 1)).unzip();
        Both::of(&ids, &locations)
    }

    fn new_id(&mut self) -> u64 {
        let id = self.ours.new_id();
        assert_eq!(id, self.rust.new_id());
        id
    }

    fn batch(&mut self, batch: &mut Batch) {
        self.ours.offer(batch);
        let placed = batch.placed.clone();
        self.rust.offer(batch);
        assert_eq!(placed, batch.placed);
        self.ours.commit();
        self.rust.commit();
    }

    fn release(&mut self) {
        self.ours.release();
        self.rust.release();
    }
}

/// Times of both sides, for each of some things.
struct Pairs(Vec<(Usual, Usual)>);

impl Pairs {
    fn new(count: usize) -> Pairs {
        Pairs((0..count).map(|_| (Usual::new(), Usual::new())).collect())
    }

    /// One thing done on both sides, with the same answer.
    fn of<T: PartialEq + std::fmt::Debug>(
        &mut self,
        at: usize,
        both: &mut Both,
        ours: impl FnOnce(&mut Ours) -> T,
        rust: impl FnOnce(&mut Original) -> T,
    ) -> T {
        let answer = self.0[at].0.of(|| ours(&mut both.ours));
        assert_eq!(answer, self.0[at].1.of(|| rust(&mut both.rust)));
        answer
    }

    fn each(&self, at: usize, count: usize) -> (f64, f64) {
        (self.0[at].0.each(count), self.0[at].1.each(count))
    }
}

fn offered(pairs: &mut Pairs, at: usize, both: &mut Both, batch: &mut Batch) {
    let mut again = batch.clone();
    pairs.of(at, both, |ours| { ours.offer(batch); batch.placed.clone() }, |rust| { rust.offer(&mut again); again.placed.clone() });
}

/// Objects anywhere among those held get a new slot each: without keys, and in the next cycle with them. The Rust's stand-in for a key has no bytes, so
/// that ours stand alone there.
fn batches(rounds: u32, picture: &mut Picture) {
    let mut table = Table::new(picture, "a batch of 256 stores in one slab", "ns an object");
    for objects in [64 + BATCH, 4_096, FULL] {
        let mut both = Both::with(CAPACITY, CAPACITY, objects, |_| 3);
        let (mut keyless, mut keyed, mut chance) = (Pairs::new(3), Pairs::new(3), Chance(objects as u64));
        for cycle in 0..BEFORE + rounds * 4 {
            if cycle == BEFORE {
                (keyless, keyed) = (Pairs::new(3), Pairs::new(3));
            }
            for (pairs, length) in [(&mut keyless, 0), (&mut keyed, KEY)] {
                offered(pairs, 0, &mut both, &mut Batch::stores(chance.some(BATCH, objects), |_| 3).with_keys(length));
                pairs.of(1, &mut both, Ours::commit, Original::commit);
                pairs.of(2, &mut both, Ours::release, Original::release);
            }
        }
        for (at, call) in ["offer", "commit", "release"].into_iter().enumerate() {
            let (ours, rust) = keyless.each(at, BATCH);
            table.row(&format!("{call}, {} held", told(objects)), ours, rust);
        }
        for (at, call) in ["offer", "commit"].into_iter().enumerate() {
            table.ours_alone(&format!("{call}, {} held, keys of {KEY} bytes", told(objects)), keyed.each(at, BATCH).0);
        }
    }
}

/// Freed, released, allocated again; and from nothing.
fn allocation(rounds: u32, picture: &mut Picture) {
    let mut table = Table::new(picture, "allocation", "ns a number");
    for objects in [4_096, FULL] {
        let mut both = Both::with(CAPACITY, CAPACITY, objects, |_| 3);
        let (mut pairs, mut chance) = (Pairs::new(3), Chance(objects as u64));
        for cycle in 0..BEFORE + rounds * 4 {
            if cycle == BEFORE {
                pairs = Pairs::new(3);
            }
            both.batch(&mut Batch::frees(chance.some(BATCH, objects)));
            pairs.of(0, &mut both, Ours::release, Original::release);
            let new_ids = |new_id: &mut dyn FnMut() -> u64| (0..BATCH).map(|_| new_id()).collect::<Vec<u64>>();
            let ids = pairs.of(1, &mut both, |ours| new_ids(&mut || ours.new_id()), |rust| new_ids(&mut || rust.new_id()));
            offered(&mut pairs, 2, &mut both, &mut Batch::stores(ids, |_| 3));
            both.ours.commit();
            both.rust.commit();
        }
        for (at, what) in ["released, an id and a slot", "new id from 256 freed", "slot from 256 freed, offered"].into_iter().enumerate() {
            let (ours, rust) = pairs.each(at, BATCH);
            table.row(&format!("{what}, {} held", told(objects)), ours, rust);
        }
    }
    let mut pairs = Pairs::new(2);
    for _ in 0..rounds.div_ceil(8) {
        let mut both = Both::new(CAPACITY, CAPACITY);
        let fill_ids = |new_id: &mut dyn FnMut() -> u64| (1..CAPACITY).map(|_| new_id()).collect::<Vec<u64>>();
        let ids = pairs.of(0, &mut both, |ours| fill_ids(&mut || ours.new_id()), |rust| fill_ids(&mut || rust.new_id()));
        let mut fill: Vec<Batch> = ids.chunks(BATCH).map(|ids| Batch::stores(ids.iter().copied(), |_| 3)).collect();
        let mut again = fill.clone();
        pairs.of(
            1, &mut both,
            |ours| fill.iter_mut().for_each(|batch| { ours.offer(batch); ours.commit() }),
            |rust| again.iter_mut().for_each(|batch| { rust.offer(batch); rust.commit() }),
        );
    }
    for (at, what) in ["new id, 65,535 from a fresh store", "offer and commit, 65,535 into a fresh store"].into_iter().enumerate() {
        let (ours, rust) = pairs.each(at, CAPACITY - 1);
        table.row(what, ours, rust);
    }
}

fn few_slabs(rounds: u32, picture: &mut Picture) {
    let mut table = Table::new(picture, "release of 256 pending in four slabs", "ns a call");
    for capacity in [4_096, CAPACITY] {
        let length = |id: u64| [3, 100, 250, 1_000][id as usize % 4];
        let mut both = Both::with(capacity, capacity, 2_048, length);
        let (mut pairs, mut chance) = (Pairs::new(1), Chance(7));
        for _ in 0..rounds * 4 {
            let ids = chance.some(BATCH, 2_048);
            both.batch(&mut Batch::stores(ids.iter().copied(), |at| length(ids[at])));
            pairs.of(0, &mut both, Ours::release, Original::release);
        }
        let (ours, rust) = pairs.each(0, 1);
        table.row(&format!("capacities of {}", told(capacity)), ours, rust);
    }
}

fn lookups(rounds: u32, picture: &mut Picture) {
    let mut table = Table::new(picture, "lookup", "ns a call");
    for objects in [64, FULL] {
        let mut both = Both::with(CAPACITY, CAPACITY, objects, |_| 3);
        let ids: Vec<u64> = { let mut chance = Chance(3); (0..1_024).map(|_| 1 + chance.below(objects) as u64).collect() };
        ids.iter().for_each(|id| assert_eq!(both.ours.lookup(*id), both.rust.lookup(*id)));
        let Both { ours, rust } = &mut both;
        let mut a = |calls| (0..calls).for_each(|_| ids.iter().for_each(|id| { black_box(ours.lookup(*id)); }));
        let mut b = |calls| (0..calls).for_each(|_| ids.iter().for_each(|id| { black_box(rust.lookup(*id)); }));
        let t = best(rounds, 10, &mut [&mut a, &mut b]);
        table.row(&format!("{} held", told(objects)), t[0] / 1_024.0, t[1] / 1_024.0);
        let held: Vec<u64> = (1..=objects as u64).collect();
        for ids in held.chunks(BATCH) {
            ours.offer(&mut Batch::stores(ids.iter().copied(), |_| 3).with_keys(KEY));
            ours.commit();
            ours.release();
        }
        assert_eq!(ours.key(1), &brought(1, KEY)[16..16 + KEY]);
        let mut a = |calls| (0..calls).for_each(|_| ids.iter().for_each(|id| { black_box(ours.key(*id).iter().fold(0, |sum, byte| sum ^ byte)); }));
        let t = best(rounds, 10, &mut [&mut a]);
        table.ours_alone(&format!("{} held, and its key of {KEY} bytes read", told(objects)), t[0] / 1_024.0);
    }
}

/// The ids of pages: a call for each page, and beside it a call for each id, ours and the Rust's, over the same tables. The lists that a page fills are
/// made once, as a browser makes them.
fn pages(rounds: u32, picture: &mut Picture) {
    const HELD: usize = 4_096;
    let mut table = Table::new(picture, "lookup of a page's ids, 4,096 held", "ns an id");
    let Both { ours, mut rust } = Both::with(CAPACITY, CAPACITY, HELD, |_| 3);
    let ours = RefCell::new(ours);
    for count in [40, 256] {
        let mut chance = Chance(3);
        let ids: Vec<u64> = (0..1_024 / count * count).map(|_| 1 + chance.below(HELD) as u64).collect();
        let mut page = Page::new(count);
        ids.chunks(count).for_each(|asked| compare_page(&mut ours.borrow_mut(), &mut rust, asked, &mut page));
        let mut a = |calls| {
            let ours = &mut *ours.borrow_mut();
            (0..calls).for_each(|_| ids.chunks(count).for_each(|asked| { ours.lookup_page(asked, &mut page); black_box(&page); }))
        };
        let mut b = |calls| {
            let ours = &mut *ours.borrow_mut();
            (0..calls).for_each(|_| ids.iter().for_each(|id| { black_box(ours.lookup(*id)); }))
        };
        let mut c = |calls| (0..calls).for_each(|_| ids.iter().for_each(|id| { black_box(rust.lookup(*id)); }));
        let t = best(rounds, 10, &mut [&mut a, &mut b, &mut c]);
        let [in_one, singly, rust] = [t[0], t[1], t[2]].map(|time| time / ids.len() as f64);
        table.row(&format!("{count} in one call"), in_one, rust);
        table.row(&format!("{count}, a call for each"), singly, rust);
    }
}

/// A page has what single lookups have, and the table's rows.
fn compare_page(ours: &mut Ours, rust: &mut Original, asked: &[u64], page: &mut Page) {
    ours.lookup_page(asked, page);
    for (at, id) in asked.iter().enumerate() {
        assert_eq!((page.numbers[at], page.found[at], page.found[at]), (0, ours.lookup(*id), rust.lookup(*id)));
        let [row, kept] = [(&page.rows, at), (&ours.carried, *id as usize)].map(|(rows, at)| &rows[CARRIED_WIDTH * at..][..CARRIED_WIDTH]);
        assert_eq!(row, kept);
    }
}

fn defrag(rounds: u32, picture: &mut Picture) {
    let mut table = Table::new(picture, "defrag list", "ns a call");
    // More than 65,535 objects fill no store's slabs by calls: the marks say held, which is all that a full slab's answer reads.
    let mut full = Both::new(CAPACITY, CAPACITY);
    full.ours.slot_marks.fill(1);
    full.ours.tallies[158..237].fill(1);
    (0..78).for_each(|slab| set_free_and_tip(&full.rust.mapper.clone_slab_allocator_arc(slab), 0, CAPACITY as u64));
    for (what, both) in [("78 full slabs of 65,536", &mut full), ("a slab of 65,536, half empty", &mut Both::half_empty())] {
        let mut pairs = Pairs::new(1);
        let mut rows = 0;
        (0..rounds).for_each(|_| rows = pairs.of(0, both, |ours| ours.defrag(RATIO), Original::defrag));
        let (ours, rust) = pairs.each(0, 1);
        table.row(&format!("{what}: {} rows", told(rows)), ours, rust);
    }
}

/// Why an object is to be moved, or is not. The Rust has no such call: beside ours is its lookup, and the line of the object's slab, for which it keeps
/// counts. How many smaller slots are taken it cannot tell without a walk over its set of free ones.
fn reasons(rounds: u32, picture: &mut Picture) {
    let mut table = Table::new(picture, "reason for one object, beside the Rust's lookup and line", "ns a call");
    let scattered = |capacity| {
        const HELD: usize = 64 + BATCH;
        let mut both = Both::with(capacity, capacity, HELD, |_| 3);
        both.batch(&mut Batch::stores(Chance(5).some(BATCH, HELD), |_| 3));
        both.release();
        (HELD, both)
    };
    let full = || {
        let (ids, locations): (Vec<u64>, Vec<u64>) = (1..CAPACITY as u64).map(|id| (id, (1 << 56) + id - 1)).unzip();
        (ids.len(), Both::of(&ids, &locations))
    };
    let cases: [(&str, &dyn Fn() -> (usize, Both)); 4] = [
        ("320 held, capacities of 1,024", &|| scattered(1_024)),
        ("320 held, capacities of 65,536", &|| scattered(CAPACITY)),
        ("a slab of 65,536, 65,535 held", &full),
        ("a slab of 65,536, half empty", &|| (CAPACITY / 2, Both::half_empty())),
    ];
    for (what, store) in cases {
        let (held, Both { mut ours, mut rust }) = store();
        let ids = Chance(3).some(64, held);
        ids.iter().for_each(|id| compare_reason(&mut ours, &mut rust, *id));
        let mut a = |calls| (0..calls).for_each(|_| ids.iter().for_each(|id| { black_box(ours.reason(*id, RATIO)); }));
        let mut b = |calls| (0..calls).for_each(|_| ids.iter().for_each(|id| { black_box(rust.line(*id, RATIO)); }));
        let t = best(rounds, 10, &mut [&mut a, &mut b]);
        table.row(what, t[0] / ids.len() as f64, t[1] / ids.len() as f64);
    }
}

/// Ours names the Rust's location, and its line and tip where there is a line.
fn compare_reason(ours: &mut Ours, rust: &mut Original, id: u64) {
    let [number, slab, slot, _, _, tip, line] = ours.reason(id, RATIO);
    let (location, line_and_tip) = rust.line(id, RATIO);
    let expected = line_and_tip.map_or(1, |(line, _)| if slot < line { 2 } else { 3 });
    assert_eq!((((slab + 1) << 56) + slot, number), (location, expected));
    assert_eq!((number > 1).then_some((line, tip)), line_and_tip);
}

fn rebuild(rounds: u32, picture: &mut Picture) {
    let mut table = Table::new(picture, "rebuild of 65,535 rows", "ns a row");
    for (what, slabs) in [("in one slab", 1), ("in 78 slabs", 78)] {
        let ids: Vec<u64> = (1..CAPACITY as u64).collect();
        let locations: Vec<u64> = ids.iter().map(|id| ((id % slabs + 1) << 56) + id / slabs).collect();
        let carried: Vec<u8> = ids.iter().flat_map(|id| brought(*id, 0)).collect();
        let rows = Original::rows(&ids, &locations);
        let mut both = Both::new(CAPACITY, CAPACITY);
        let mut pairs = Pairs::new(1);
        for _ in 0..rounds {
            pairs.0[0].0.of(|| both.ours.rebuild(&ids, &locations, &carried));
            let made = pairs.0[0].1.of(|| Original::new(&rows, RATIO));
            both.rust = made;
        }
        ids.iter().step_by(97).for_each(|id| assert_eq!(both.ours.lookup(*id), both.rust.lookup(*id)));
        let (ours, rust) = pairs.each(0, ids.len());
        table.row(what, ours, rust);
    }
}

/// 64 ids, 64 slots, one object at a time.
fn fixed_costs(rounds: u32, picture: &mut Picture) {
    let mut table = Table::new(picture, "each call on a store of 64 ids and 64 slots", "ns a call");
    let mut both = Both::with(64, 64, 32, |_| 3);
    let mut pairs = Pairs::new(5);
    for at in 0..rounds * 50 {
        let one = Batch::stores([1 + u64::from(at) % 32], |_| 3);
        offered(&mut pairs, 0, &mut both, &mut one.clone());
        pairs.of(1, &mut both, Ours::commit, Original::commit);
        pairs.of(2, &mut both, Ours::release, Original::release);
        pairs.of(3, &mut both, Ours::release, Original::release);
        let id = pairs.of(4, &mut both, Ours::new_id, Original::new_id);
        both.batch(&mut Batch::frees([id]));
        both.release();
    }
    let names = ["offer of one", "commit of one", "release of one", "release of none", "new id"];
    for (at, name) in names.into_iter().enumerate() {
        let (ours, rust) = pairs.each(at, 1);
        table.row(name, ours, rust);
    }
    let Both { ours, rust } = &mut both;
    let mut a = |calls| (0..calls).for_each(|_| { black_box(ours.stats()); });
    let mut b = |calls| (0..calls).for_each(|_| { black_box(rust.stats()); });
    let t = best(rounds, 1_000, &mut [&mut a, &mut b]);
    table.row("stats", t[0], t[1]);
    let mut a = |calls| (0..calls).for_each(|_| { black_box(ours.defrag(RATIO)); });
    let mut b = |calls| (0..calls).for_each(|_| { black_box(rust.defrag()); });
    let t = best(rounds, 100, &mut [&mut a, &mut b]);
    table.row("defrag list of no rows", t[0], t[1]);
    let (mut fresh, mut made) = (Usual::new(), Usual::new());
    let mut other = Ours::new(64, 64);
    for _ in 0..rounds * 20 {
        fresh.of(|| other.fresh());
        made.of(|| Original::new(&[], RATIO));
    }
    table.row("fresh", fresh.each(1), made.each(1));
    ours_alone(rounds, &mut table, ours);
}

/// Of slab 0, among the tallies.
const HIGH_MARK: usize = 395;

fn ours_alone(rounds: u32, table: &mut Table, ours: &mut Ours) {
    let mut abandon = Usual::new();
    for _ in 0..rounds * 50 {
        ours.offer(&mut Batch::stores([1], |_| 3));
        abandon.of(|| ours.abandon());
    }
    table.ours_alone("abandon of one", abandon.each(1));
    let counters = best(rounds, 1_000, &mut [&mut |calls| (0..calls).for_each(|_| { black_box(ours.counters()); })]);
    table.ours_alone("counters, all 79 pairs", counters[0]);
    assert_eq!(ours.truncation(0)[0], 0);
    let truncation = best(rounds, 1_000, &mut [&mut |calls| (0..calls).for_each(|_| { black_box(ours.truncation(0)); })]);
    table.ours_alone("truncation of one slab, kept", truncation[0]);
    // The high mark is the last slot, and asking leaves it there.
    ours.tallies[HIGH_MARK] = 63;
    assert_eq!(ours.truncation(0)[0], 1);
    let cut = best(rounds, 1_000, &mut [&mut |calls| (0..calls).for_each(|_| { black_box(ours.truncation(0)); })]);
    table.ours_alone("truncation of one slab, cut", cut[0]);
    let mut cut_done = Usual::new();
    for _ in 0..rounds * 50 {
        ours.tallies[HIGH_MARK] = 63;
        cut_done.of(|| ours.cut_done(0));
    }
    table.ours_alone("cut report", cut_done.each(1));
}

pub fn run(rounds: u32, picture: &mut Picture) {
    batches(rounds, picture);
    allocation(rounds, picture);
    few_slabs(rounds, picture);
    lookups(rounds, picture);
    pages(rounds, picture);
    defrag(rounds, picture);
    reasons(rounds, picture);
    rebuild(rounds, picture);
    fixed_costs(rounds, picture);
}
