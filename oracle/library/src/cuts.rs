//! The Rust's cuts in the port's words, a difference on the list (2026-05): a length is rounded up to whole slots, and the bytes given back are
//! those from the length before down to it. Both are worked out of the Rust's own high marks and file lengths.
use crate::calls::Call;
use crate::heap::{probe, Heap};
use crate::ours::ok;
use crate::tables::SLABS;
use crate::words::Words;
use wentuhoro::SLAB_SIZES;

pub fn high_marks(heap: &Heap) -> [u64; SLABS] {
    std::array::from_fn(|slab| probe::high_mark(heap, slab))
}

fn whole_slots(slab: usize, length: u64) -> u64 {
    length.next_multiple_of(SLAB_SIZES[slab])
}

/// Of a file that was cut, by the high mark before.
fn given_back(slab: usize, before: u64, length: u64) -> u64 {
    (before + 1) * SLAB_SIZES[slab] - whole_slots(slab, length)
}

/// What the Rust said of a call on files, as the library has to say it, by the high marks that the call found.
pub fn in_our_words(heap: &Heap, call: &Call, before: &[u64; SLABS], said: String) -> String {
    let mut words = Words::of(&said);
    match call {
        Call::FileLength(slab) if words.next() == "ok" => ok([whole_slots(*slab as usize, words.number())]),
        Call::Batch(_) if words.next() == "ok" => {
            let [cuts, _, written, files] = std::array::from_fn(|_| words.number());
            // A cut brings the high mark down, and nothing else in a batch does.
            let cut = (0..SLABS).filter(|slab| probe::high_mark(heap, *slab) < before[*slab]);
            let back = cut.map(|slab| given_back(slab, before[slab], probe::file_length(heap, slab))).sum();
            ok([cuts, back, written, files])
        }
        _ => said,
    }
}

/// The same of a pass over rows `SLAB TIP HIGH`.
pub fn passes_in_our_words(rows: &[(u64, u64, u64)], said: &str) -> String {
    let mut words = Words::of(said);
    if words.next() != "ok" {
        return said.into();
    }
    let (cuts, _) = (words.number(), words.number());
    let mut back = 0;
    let mut after = vec![];
    for (slab, _, high) in rows {
        let (slab, length, mark) = (*slab as usize, words.number(), words.number());
        if mark < *high {
            back += given_back(slab, *high, length);
        }
        after.extend([whole_slots(slab, length), mark]);
    }
    ok([cuts, back].into_iter().chain(after))
}
