//! Reasons where rounding decides: of slabs with each count of slots in use below each tip, by the f32 numbers beside each quotient about which the
//! line comes to an object's slot or to the one behind it, or about which the slab is full enough.
use crate::both::{Both, Counts};
use crate::calls::Call;
use crate::chance::Chance;

pub fn run(counts: &mut Counts, chance: &mut Chance, limit: u64) {
    for tip in 1..limit {
        for live in 1..=tip {
            about_the_line(counts, chance, live, tip);
        }
    }
}

/// The last slot is in use, and any others.
fn about_the_line(counts: &mut Counts, chance: &mut Chance, live: u64, tip: u64) {
    let mut slots: Vec<u64> = (0..tip - 1).collect();
    chance.shuffle(&mut slots);
    slots.truncate(live as usize - 1);
    slots.push(tip - 1);
    let mut both = Both::mapper(live + 1, tip);
    both.call(counts, Call::Rebuild((1..=live).zip(slots.iter().map(|slot| (1 << 56) + slot)).collect()));
    for id in [live, chance.among(1, live)] {
        let slot = slots[id as usize - 1];
        for line in [slot.max(1), slot + 1, tip] {
            let middle = (live as f32 / line as f32).to_bits();
            let near = (middle - 2..=middle + 2).filter(|bits| f32::from_bits(*bits) <= 1.0);
            near.for_each(|bits| { both.call(counts, Call::Reason(id, bits)); });
        }
    }
}
