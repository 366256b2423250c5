//! Capacities of 65,536: full tables, the last number, a released middle, a rebuild of every row.
use crate::both::{Both, Counts};
use crate::calls::Call;
use crate::chance::Chance;
use crate::tables::{Update, MOST_ASKED, MOST_UPDATES};

const CAPACITY: u64 = 65_536;
const RATIOS: [u32; 4] = [0x3F80_0000, 0x3F40_0000, 0x3F00_0000, 0x3E80_0000];
const ASKED_FOR_REASONS: [u64; 7] = [0, 1, 2, 8, 32_768, 65_535, 65_536];

fn store(id: u64, length: u64) -> Update {
    Update { store: true, id, length, seed: 0 }
}

fn free(id: u64) -> Update {
    Update { store: false, id, length: 0, seed: 0 }
}

struct Full<'a> {
    both: Both,
    counts: &'a mut Counts,
}

impl Full<'_> {
    fn call(&mut self, call: Call) {
        self.both.call(self.counts, call);
        // What came before would be too long to show.
        self.both.history.clear();
    }

    fn batches(&mut self, updates: &[Update]) {
        for batch in updates.chunks(MOST_UPDATES) {
            self.call(Call::Offer(batch.to_vec()));
            self.call(Call::Commit);
        }
    }

    fn whole_state(&mut self) {
        self.call(Call::Dump);
        self.call(Call::Counters);
        self.call(Call::Snapshot);
        for bits in RATIOS {
            self.call(Call::Defrag(bits));
            ASKED_FOR_REASONS.iter().for_each(|id| self.call(Call::Reason(*id, bits)));
        }
        // From the last id down, over all of them.
        let page = |count: usize| Call::Page((1..CAPACITY).rev().step_by(255).take(count).collect());
        self.call(page(MOST_ASKED));
        self.call(page(MOST_ASKED + 1));
    }
}

pub fn run(counts: &mut Counts, chance: &mut Chance) {
    let mut full = Full { both: Both::mapper(CAPACITY, CAPACITY), counts };
    // Every id but 0, then none is left.
    (1..=CAPACITY).for_each(|_| full.call(Call::NewId));
    full.batches(&(1..CAPACITY).map(|id| store(id, 3)).collect::<Vec<_>>());
    full.whole_state();
    let mut freed: Vec<u64> = (1..CAPACITY).collect();
    chance.shuffle(&mut freed);
    full.batches(&freed[..40_000].iter().map(|id| free(*id)).collect::<Vec<_>>());
    full.whole_state();
    full.call(Call::Release);
    full.whole_state();
    for _ in 0..300 {
        full.call(Call::NewId);
        let newest = (1..CAPACITY).rev().find(|id| full.both.judge().held()[*id as usize]).unwrap();
        full.batches(&[store(newest, chance.of(&[3, 60, 17_179_869_172]))]);
    }
    full.whole_state();
    // One slab's slots run out.
    let slab_5 = |slot: u64| (6 << 56) + slot;
    full.call(Call::Rebuild((1..CAPACITY).map(|id| (id, slab_5(id))).collect()));
    full.batches(&[store(7, 150)]);
    full.call(Call::Offer(vec![store(8, 150)]));
    full.call(Call::Release);
    full.batches(&[store(8, 150)]);
    full.whole_state();
    // The last slot of the last slab, alone.
    full.call(Call::Rebuild(vec![(65_535, (78 << 56) + 65_535)]));
    (0..3).for_each(|_| full.call(Call::NewId));
    full.batches(&[store(65_535, 17_179_869_172), store(2, 17_179_869_172), store(1, 0)]);
    full.whole_state();
    full.call(Call::Release);
    full.whole_state();
    // Rows that repeat, at the end of as many as there can be.
    let mut rows: Vec<(u64, u64)> = (1..CAPACITY).map(|id| (id, slab_5(id))).collect();
    chance.shuffle(&mut rows);
    let (first, last) = (rows[0], rows.len() - 1);
    let mut repeated = rows.clone();
    repeated[last].1 = first.1;
    full.call(Call::Rebuild(repeated));
    rows.push(first);
    full.call(Call::Rebuild(rows));
}
