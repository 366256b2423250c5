//! Every history of a tiny store, breadth first.
//!
//! A state is all that the lent tables hold, counters and high marks aside, which no answer compared here but `counters` and `dump` reads, and
//! what rows carry, which decides nothing: hints and waiting words are part of it, rows that no open batch uses are not. From each state every
//! call is made, on both sides, from the calls that first reached it.
use std::collections::{HashSet, VecDeque};
use std::hash::{DefaultHasher, Hash, Hasher};

use crate::both::{Both, Counts};
use crate::calls::Call;
use crate::ours::state;
use crate::progress::Progress;
use crate::tables::Update;

/// Id capacity, slot capacity, a length for each slab.
pub const SIZES: &[(u64, u64, &[u64])] =
    &[(2, 1, &[3]), (2, 2, &[3]), (2, 2, &[3, 60]), (3, 1, &[3]), (3, 2, &[3]), (3, 1, &[3, 60]), (3, 3, &[3]), (3, 2, &[3, 60])];

const RATIOS: [u32; 6] = [0x3F80_0000, 0x3F40_0000, 0x3F00_0000, 0x3EAA_AAAB, 0x3F2A_AAAB, 1];

/// Every way to take some of these in order, each once.
fn arrangements<T: Copy>(of: &[T]) -> Vec<Vec<T>> {
    let mut all = vec![vec![]];
    for (at, first) in of.iter().enumerate() {
        let rest: Vec<T> = of.iter().enumerate().filter(|(other, _)| *other != at).map(|(_, value)| *value).collect();
        all.extend(arrangements(&rest).into_iter().map(|after| [vec![*first], after].concat()));
    }
    all
}

fn all_batches(ids: u64, lengths: &[u64]) -> Vec<Vec<Update>> {
    let mut batches = vec![];
    let above_zero: Vec<u64> = (1..ids).collect();
    for chosen in arrangements(&above_zero) {
        let mut made = vec![vec![]];
        for id in chosen {
            let free = Update { store: false, id, length: 0, seed: 0 };
            let kinds: Vec<Update> = lengths.iter().map(|length| Update { store: true, length: *length, ..free }).chain([free]).collect();
            made = made.iter().flat_map(|batch| kinds.iter().map(move |kind| [batch.as_slice(), &[*kind]].concat())).collect();
        }
        batches.extend(made);
    }
    batches
}

/// Every rebuild: each id at no slot or at one of its own.
fn all_rows(ids: u64, slots: u64, lengths: &[u64]) -> Vec<Vec<(u64, u64)>> {
    let slabs = lengths.iter().map(|length| u64::from(crate::heap::probe::class(*length)));
    let places: Vec<u64> = slabs.flat_map(|slab| (0..slots).map(move |slot| ((slab + 1) << 56) + slot)).collect();
    let above_zero: Vec<u64> = (1..ids).collect();
    let mut rows = vec![];
    for chosen in arrangements(&above_zero) {
        let located = arrangements(&places).into_iter().filter(|places| places.len() == chosen.len());
        rows.extend(located.map(|places| chosen.iter().copied().zip(places).collect::<Vec<_>>()));
    }
    rows
}

/// Two sums of a state: that two states share both is not to be expected.
fn sums(both: &mut Both) -> (u64, u64) {
    let state = state(both.ours.ours());
    let sum = |salt: u64| {
        let mut hasher = DefaultHasher::new();
        (salt, &state).hash(&mut hasher);
        hasher.finish()
    };
    (sum(1), sum(2))
}

struct Search<'a> {
    ids: u64,
    slots: u64,
    calls: &'a [Call],
    reached: HashSet<(u64, u64)>,
    waiting: VecDeque<Vec<u16>>,
}

impl Search<'_> {
    /// Both sides in the state that these calls reach, which were compared when they first reached it.
    fn both_after(&self, path: &[u16]) -> Both {
        let mut both = Both::mapper(self.ids, self.slots);
        both.ours.ours().tables.watched = false;
        for at in path {
            both.call(&mut Counts::default(), self.calls[*at as usize].clone());
        }
        both.ours.ours().tables.watched = true;
        both
    }

    fn reach(&mut self, both: &mut Both, path: Vec<u16>) {
        if self.reached.insert(sums(both)) {
            self.waiting.push_back(path);
        }
    }
}

/// How many states there are.
pub fn closure(counts: &mut Counts, ids: u64, slots: u64, lengths: &[u64]) -> usize {
    let rows: Vec<Call> = all_rows(ids, slots, lengths).into_iter().map(Call::Rebuild).collect();
    let batches = all_batches(ids, lengths).into_iter().map(Call::Offer);
    let changing: Vec<Call> = [Call::NewId, Call::Release, Call::Commit, Call::Abandon].into_iter().chain(batches).collect();
    let calls: Vec<Call> = changing.iter().cloned().chain(rows).collect();
    let mut search = Search { ids, slots, calls: &calls, reached: HashSet::new(), waiting: VecDeque::new() };
    for start in changing.len()..calls.len() {
        let path = vec![start as u16];
        let mut both = search.both_after(&path);
        search.reach(&mut both, path);
    }
    let mut progress = Progress::new();
    while let Some(path) = search.waiting.pop_front() {
        progress.tell(search.reached.len() - search.waiting.len(), search.reached.len(), "states reached so far");
        if counts.differences > 0 {
            break;
        }
        let mut here = search.both_after(&path);
        here.call(counts, Call::Dump);
        here.call(counts, Call::Counters);
        here.call(counts, Call::Snapshot);
        (0..=ids).for_each(|id| { here.call(counts, Call::Lookup(id)); });
        here.call(counts, Call::Page((0..=ids).chain((0..=ids).rev()).collect()));
        for bits in RATIOS {
            here.call(counts, Call::Defrag(bits));
            (0..=ids).for_each(|id| { here.call(counts, Call::Reason(id, bits)); });
        }
        for (at, call) in changing.iter().enumerate() {
            if here.judge().refusal(call).is_some() {
                here.call(counts, call.clone());
                continue;
            }
            let mut there = search.both_after(&path);
            there.call(counts, call.clone());
            there.call(counts, Call::Dump);
            search.reach(&mut there, [path.as_slice(), &[at as u16]].concat());
        }
    }
    search.reached.len()
}
