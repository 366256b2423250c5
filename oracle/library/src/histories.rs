//! Random histories.
use crate::both::{Both, Counts};
use crate::calls::Call;
use crate::chance::Chance;
use crate::id_allocator::probe::free_and_tip;
use crate::object_location_mapper::probe::location;
use crate::our_leaves::tail_bytes;
use crate::progress::Progress;
use crate::rows::Carried;
use crate::tables::{Update, ALLOCATORS, SLABS};
use wentuhoro::SLAB_SIZES;

/// Where the Rust picks another class: listed differences.
const OTHER_CLASS_IN_RUST: [u64; 4] = [65_529, 4_294_967_285, 4_294_967_286, 4_294_967_287];

/// On files a batch costs what its slots weigh.
const LARGEST_SLAB_ON_FILES: u64 = 23;

const RATIOS: [u32; 9] =
    [0x3F40_0000, 0x3F00_0000, 0x3EAA_AAAB, 0x3F80_0000, 0x3F66_6667, 0x3DCC_CCCD, 0x0000_0001, 0x3F7F_FFFF, 0x3F2A_AAAB];
const BAD_RATIOS: [u32; 5] = [0, 0x8000_0000, 0x7F80_0000, 0x7FC0_0000, 0x3F80_0001];

/// One to three lengths, each at the edge of a class or anywhere in it.
fn some_lengths(chance: &mut Chance, largest_slab: u64) -> Vec<u64> {
    let mut lengths = vec![];
    for _ in 0..chance.of(&[1, 1, 2, 3]) {
        let size = SLAB_SIZES[chance.among(0, largest_slab) as usize];
        let room = size - tail_bytes(size as usize) as u64;
        let anywhere = chance.among(0, room);
        lengths.push(chance.of(&[room, room - 1, anywhere, 3]));
    }
    lengths.retain(|length| !OTHER_CLASS_IN_RUST.contains(length));
    if lengths.is_empty() { vec![3] } else { lengths }
}

struct History<'a> {
    both: Both,
    counts: &'a mut Counts,
    chance: &'a mut Chance,
    lengths: Vec<u64>,
    on_files: bool,
}

impl History<'_> {
    fn call(&mut self, call: Call) -> bool {
        self.both.call(self.counts, call)
    }

    fn held(&self) -> Vec<u64> {
        let held = self.both.judge().held();
        (1..self.both.ids).filter(|id| held[*id as usize]).collect()
    }

    /// Mostly of held ids, seldom of others; lists in any order.
    fn some_updates(&mut self) -> Vec<Update> {
        let mut held = self.held();
        self.chance.shuffle(&mut held);
        held.truncate(self.chance.of(&[0, 1, 1, 2, 3, 5, 8, 256]));
        let mut updates: Vec<Update> = held
            .into_iter()
            .map(|id| {
                let (store, length, seed) = (self.chance.in_hundred(70), self.chance.of(&self.lengths), self.chance.among(0, 255));
                Update { store, id, length: if store { length } else { 0 }, seed }
            })
            .collect();
        if self.chance.in_hundred(8) {
            let (id, store) = (self.chance.among(0, self.both.ids + 1), self.chance.in_hundred(50));
            let length = if store { self.chance.of(&[0, 1 << 40, u64::MAX]) } else { 0 };
            updates.push(Update { store, id, length, seed: 0 });
        }
        if self.chance.in_hundred(1) {
            updates = updates.iter().cycle().take(257 * updates.len().min(1)).copied().collect();
        }
        self.tell_keys(updates.len());
        updates
    }

    /// Keys of the next call's rows, now and then: of any length, seldom a longer one than there are.
    fn tell_keys(&mut self, rows: usize) {
        if !self.chance.in_hundred(10) {
            return;
        }
        let is_one_too_long = self.chance.in_hundred(40);
        let mut carried: Vec<Carried> = (0..rows)
            .map(|_| Carried { key_length: self.chance.of(&[0, 1, 2, 31, 62, 63, 64]), ..Carried::some(self.chance.word(), true) })
            .collect();
        if is_one_too_long && rows > 0 {
            let at = self.chance.among(0, rows as u64 - 1) as usize;
            carried[at].key_length = self.chance.of(&[65, 66, 72, 128, 255, 256, 320, 1 << 32, 1 << 63, u64::MAX]);
        }
        self.both.tell(&carried);
    }

    fn batch(&mut self) -> bool {
        let updates = self.some_updates();
        if self.on_files {
            return self.batch_on_files(updates);
        }
        if !self.call(Call::Offer(updates)) {
            return false;
        }
        while self.chance.in_hundred(25) {
            if !self.call_while_open() {
                return false;
            }
        }
        let end = if self.chance.in_hundred(75) { Call::Commit } else { Call::Abandon };
        self.call(end)
    }

    fn call_while_open(&mut self) -> bool {
        match self.chance.among(0, 9) {
            9 => self.reason(),
            8 => self.page(),
            7 => self.call(Call::Snapshot),
            0 => self.lookup(),
            1 => self.call(Call::Counters),
            2 => self.call(Call::Dump),
            3 => self.call(Call::NewId),
            4 => self.call(Call::Release),
            5 => self.call(Call::Defrag(RATIOS[0])),
            _ => {
                let updates = self.some_updates();
                self.call(Call::Offer(updates))
            }
        }
    }

    fn batch_on_files(&mut self, updates: Vec<Update>) -> bool {
        let refused = self.both.judge().refusal(&Call::Batch(updates.clone())).is_some();
        if !self.call(Call::Batch(updates.clone())) {
            return false;
        }
        let mut slabs: Vec<u64> = (0..3).map(|_| self.chance.among(0, SLABS as u64 - 1)).collect();
        for update in updates.iter().filter(|update| update.store && !refused) {
            slabs.push((location(self.both.rust.mapper(), update.id) >> 56) - 1);
        }
        slabs.into_iter().all(|slab| self.call(Call::FileLength(slab)) && self.call(Call::High(slab)))
    }

    fn lookup(&mut self) -> bool {
        let id = self.chance.among(0, self.both.ids);
        self.call(Call::Lookup(id))
    }

    fn some_id(&mut self) -> u64 {
        let capacity = self.both.ids;
        match self.chance.in_hundred(10) {
            true => self.chance.of(&[0, capacity, capacity + 1, 1 << 56, u64::MAX]),
            false => self.chance.among(1, capacity - 1),
        }
    }

    /// Of a few ids, now and then of as many as there may be, or one more.
    fn page(&mut self) -> bool {
        let few = self.chance.among(0, 12);
        let count = if self.chance.in_hundred(96) { few } else { self.chance.of(&[255, 256, 257]) };
        let ids = (0..count).map(|_| self.some_id()).collect();
        self.call(Call::Page(ids))
    }

    fn some_ratio(&mut self) -> u32 {
        let any = self.chance.among(1, 0x3F80_0000) as u32;
        let (good, bad) = (self.chance.of(&RATIOS), self.chance.of(&BAD_RATIOS));
        self.chance.of(&[any, any, any, good, good, good, bad])
    }

    fn defrag(&mut self) -> bool {
        let bits = self.some_ratio();
        self.call(Call::Defrag(bits))
    }

    /// A ratio about which the line comes to this object's slot or to the one behind it, or about which its slab is full enough.
    fn ratio_near(&mut self, location: u64) -> u32 {
        let (free, tip) = free_and_tip(&self.both.rust.mapper().clone_slab_allocator_arc((location >> 56) as u8 - 1));
        let (live, slot) = (tip - free.len() as u64, location & ((1 << 56) - 1));
        let line = self.chance.of(&[slot.max(1), slot + 1, tip]);
        (live as f32 / line as f32).to_bits() + self.chance.of(&[0, 1, 2]) - 1
    }

    /// Of some objects, each by a ratio of its own; or of any number by any ratio.
    fn reason(&mut self) -> bool {
        let mut live = self.both.judge().live();
        self.chance.shuffle(&mut live);
        live.truncate(3);
        let near = live.into_iter().map(|(id, location)| (id, self.ratio_near(location))).collect::<Vec<_>>();
        let any = (self.some_id(), self.some_ratio());
        near.into_iter().chain([any]).all(|(id, bits)| self.call(Call::Reason(id, bits)))
    }

    /// The bytes that come back through the heap, and the slot's own.
    fn read(&mut self) -> bool {
        let stored: Vec<u64> = self.held().into_iter().filter(|id| location(self.both.rust.mapper(), *id) != 0).collect();
        if stored.is_empty() {
            return true;
        }
        let id = self.chance.of(&stored);
        let at = location(self.both.rust.mapper(), id);
        self.call(Call::Read(id)) && self.call(Call::Slot((at >> 56) - 1, at & 0xFF_FFFF))
    }

    /// From the live rows, in any order; or, without files, from rows that no history need have left.
    fn restart(&mut self) -> bool {
        let mapper = self.both.rust.mapper();
        let mut rows: Vec<(u64, u64)> = (1..self.both.ids).map(|id| (id, location(mapper, id))).filter(|(_, at)| *at != 0).collect();
        if !self.on_files && self.chance.in_hundred(50) {
            rows = self.some_rows();
        }
        self.chance.shuffle(&mut rows);
        self.tell_keys(rows.len());
        self.call(Call::Rebuild(rows))
    }

    fn some_rows(&mut self) -> Vec<(u64, u64)> {
        let mut places = vec![];
        for length in &self.lengths {
            let slab = u64::from(crate::heap::probe::class(*length));
            for slot in 0..self.both.slots {
                if self.chance.in_hundred(50) {
                    places.push(((slab + 1) << 56) + slot);
                }
            }
        }
        places.sort_unstable();
        places.dedup();
        self.chance.shuffle(&mut places);
        let ids: Vec<u64> = (1..self.both.ids).filter(|_| self.chance.in_hundred(40)).collect();
        let mut rows: Vec<(u64, u64)> = ids.into_iter().zip(places).collect();
        if self.chance.in_hundred(20) {
            let (id, slab, slot) = (self.chance.among(0, self.both.ids), self.chance.of(&[0, 1, 78, 79]), self.chance.among(0, self.both.slots));
            rows.push((id, (slab << 56) + slot));
        }
        rows
    }

    /// Ends at the first difference: the two sides part there.
    fn run(&mut self, calls: u64) {
        for _ in 0..calls {
            let agree = match self.chance.among(0, 111) {
                0..=24 => self.call(Call::NewId),
                25..=54 => self.batch(),
                55..=66 => self.call(Call::Release),
                67..=74 => self.lookup(),
                75..=84 => self.defrag(),
                85..=87 => self.call(Call::Counters),
                88 => {
                    let allocator = self.chance.among(0, ALLOCATORS as u64 - 1);
                    self.call(Call::Counter(allocator))
                }
                89..=93 => self.call(Call::Dump),
                94..=96 => self.restart(),
                97..=98 if !self.on_files => {
                    let end = self.chance.of(&[0, 1]);
                    self.call(if end == 0 { Call::Commit } else { Call::Abandon })
                }
                99..=100 => self.call(Call::Snapshot),
                105..=107 => self.page(),
                108..=111 => self.reason(),
                _ if self.on_files => self.read(),
                _ => true,
            };
            if !agree {
                return;
            }
        }
        self.call(Call::Dump);
        self.call(Call::Snapshot);
    }
}

fn some_capacities(chance: &mut Chance) -> (u64, u64) {
    match chance.in_hundred(2) {
        true => (chance.among(200, 400), chance.among(100, 300)),
        false => (chance.among(2, 14), chance.among(1, 10)),
    }
}

pub fn mapper(counts: &mut Counts, chance: &mut Chance, count: u64) {
    let mut progress = Progress::new();
    for done in 0..count {
        progress.tell(done as usize, count as usize, "histories");
        let (ids, slots) = some_capacities(chance);
        let (lengths, calls) = (some_lengths(chance, SLABS as u64 - 1), chance.among(5, 60));
        History { both: Both::mapper(ids, slots), counts, chance, lengths, on_files: false }.run(calls);
    }
}

pub fn heap(counts: &mut Counts, chance: &mut Chance, count: u64) {
    let mut progress = Progress::new();
    for done in 0..count {
        progress.tell(done as usize, count as usize, "histories");
        let (ids, slots) = some_capacities(chance);
        let (lengths, calls) = (some_lengths(chance, LARGEST_SLAB_ON_FILES), chance.among(5, 60));
        History { both: Both::heap(ids, slots), counts, chance, lengths, on_files: true }.run(calls);
    }
}
