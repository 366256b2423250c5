//! Leaves and truncations: the same lines to both, the Rust's words for an error read as the documents' numbers.
use std::panic::{catch_unwind, AssertUnwindSafe};

use crate::both::Counts;
use crate::chance::Chance;
use crate::heap_store::HeapStore;
use crate::leaves::Leaves;
use crate::our_heap::OurHeap;
use crate::our_leaves::{self, tail_bytes};
use crate::words::{hex, Words};
use crate::{answer, cuts};
use wentuhoro::SLAB_SIZES;

/// Beyond this a slot is not built in memory.
const LARGEST_SLOT_BUILT: u64 = 1_048_576;

const RUSTS_WORDS: [(&str, &str); 7] = [
    ("error InvalidData crc mismatch", "refused 4 0"),
    ("error InvalidData encountered corrupted settings cookie", "refused 4 0"),
    ("error InvalidData encountered unknown version", "refused 6 0"),
    ("error Unsupported", "refused 7 0"),
    ("error UnexpectedEof", "refused 1 0"),
    ("panic", "refused 5 0"),
    // The Rust's assert: document 01 lists nothing there.
    ("asserted", "nothing"),
];

struct BothLeaves<'a> {
    rust: Leaves,
    counts: &'a mut Counts,
}

impl BothLeaves<'_> {
    fn rust_says(&mut self, line: &str) -> String {
        let rust = &mut self.rust;
        let said = catch_unwind(AssertUnwindSafe(|| {
            let mut words = Words::of(line);
            let name = words.next().to_string();
            rust.call(&name, &mut words).unwrap()
        }));
        said.unwrap_or_else(|_| "panic".into())
    }

    /// A listed difference: the library refuses what the Rust answers so.
    fn differs(&mut self, line: &str, rust: &str, ours: &str) {
        let said = self.rust_says(line);
        self.counts.listed += 1;
        self.counts.refusals += 1;
        self.counts.compare(&[], &format!("{line} (the Rust)"), &said, rust);
        self.counts.compare(&[], line, &our_leaves::call(line).unwrap(), ours);
    }

    fn call(&mut self, line: &str) {
        let said = self.rust_says(line);
        let known = RUSTS_WORDS.iter().find(|(words, _)| said.starts_with(words));
        let expected = known.map_or(said.clone(), |(_, ours)| ours.to_string());
        self.counts.listed += u64::from(said == "asserted");
        self.counts.refusals += u64::from(expected.starts_with("refused"));
        self.counts.compare(&[], line, &our_leaves::call(line).unwrap(), &expected);
    }
}

fn longest_object(size: u64) -> u64 {
    size - tail_bytes(size as usize) as u64
}

pub fn numbers(counts: &mut Counts, chance: &mut Chance) {
    let mut both = BothLeaves { rust: Leaves::new(), counts };
    let mut lengths: Vec<u64> = (0..300).collect();
    for size in SLAB_SIZES {
        lengths.extend(size - 16..size + 17);
        lengths.extend(longest_object(size) - 16..longest_object(size) + 17);
    }
    lengths.extend((0..64).flat_map(|power| [(1 << power) - 1, 1 << power, (1 << power) + 1]));
    lengths.extend((0..5_000).map(|_| { let bits = chance.among(1, 63); chance.word() >> bits }));
    for length in lengths {
        // Listed: other classes of the Rust, and its sum that wraps.
        match [65_529, 4_294_967_285, 4_294_967_286, 4_294_967_287].contains(&length) || length >= u64::MAX - 11 {
            true => both.counts.listed += 1,
            false => both.call(&format!("class {length}")),
        }
    }
    for count in (0..600).chain([1_000, 4_092, 65_532, 65_536, 1_000_003]) {
        let (seed, step) = (chance.among(0, 255), chance.of(&[0, 1, 7, 31, 255]));
        both.call(&format!("crc ramp {count} {seed} {step}"));
    }
    for slab in 0..78 {
        for slot in [0, 1, 5, 255, 256, 65_535, chance.among(0, 65_535)] {
            both.call(&format!("pack {slab} {slot}"));
            both.call(&format!("unpack {}", ((slab + 1) << 56) + slot));
        }
    }
    both.call("unpack 0");
}

/// Each slab up to a mebibyte: frames of any object, read back, damaged anywhere, and signed with any length or with rubbish in the gap.
pub fn frames(counts: &mut Counts, chance: &mut Chance, count: u64) {
    let mut both = BothLeaves { rust: Leaves::new(), counts };
    for size in SLAB_SIZES.into_iter().filter(|size| *size <= LARGEST_SLOT_BUILT) {
        let room = longest_object(size);
        for _ in 0..if size > 16_384 { count / 10 + 1 } else { count } {
            let anywhere = chance.among(0, room);
            let length = chance.of(&[0, 1, room, room - 1, anywhere, anywhere]);
            let (seed, step) = (chance.among(0, 255), chance.of(&[0, 1, 7, 255]));
            both.call(&format!("frame {size} ramp {length} {seed} {step}"));
            let beyond = room + chance.among(1, 12);
            match beyond == 65_529 {
                true => both.counts.listed += 1,
                false => both.call(&format!("frame {size} ramp {beyond} 1 1")),
            }
            // The tail as it was written, with one bit changed, and with another length under a good check.
            let object: Vec<u8> = (0..length).map(|i| (seed + i * step) as u8).collect();
            let mut slot = vec![0; size as usize];
            wentuhoro::Slab::write(&mut slot, &object).unwrap();
            let mut tail = slot[room as usize..].to_vec();
            both.call(&format!("unframe {size} ramp {length} {seed} {step} {}", hex(&tail)));
            let at = chance.among(0, tail.len() as u64 - 1) as usize;
            tail[at] ^= 1 << chance.among(0, 7);
            both.call(&format!("unframe {size} ramp {length} {seed} {step} {}", hex(&tail)));
            signed(&mut both, chance, slot, room as usize, length as usize);
        }
    }
}

/// Another length in the field, then one byte changed in the gap behind the object; each signed.
fn signed(both: &mut BothLeaves, chance: &mut Chance, slot: Vec<u8>, room: usize, length: usize) {
    let end = slot.len() - 4;
    let any = chance.word() % (room as u64 + 3);
    let mut other = slot.clone();
    let field = chance.of(&[any, any, room as u64, room as u64 + 1]).to_le_bytes();
    other[room..end].copy_from_slice(&field[..end - room]);
    let stored = other[room..end].iter().rev().fold(0, |number, byte| number * 256 + *byte as usize);
    read_signed(both, other, room, stored);
    if length < room {
        let mut spotted = slot;
        let anywhere = chance.among(length as u64, room as u64 - 1) as usize;
        spotted[chance.of(&[length, anywhere, room - 1])] = chance.among(1, 255) as u8;
        read_signed(both, spotted, room, length);
    }
}

/// Where the check agrees the Rust hands back as many bytes as the field says: framing bytes, which the library refuses with 5, and objects with
/// rubbish behind them, refused with 18.
fn read_signed(both: &mut BothLeaves, mut slot: Vec<u8>, room: usize, stored: usize) {
    let end = slot.len() - 4;
    let check = (wentuhoro::crc32(&slot[..end]) ^ 0xAF).to_le_bytes();
    slot[end..].copy_from_slice(&check);
    let line = format!("unframe {} hex {} {} {}", slot.len(), room, hex(&slot[..room]), hex(&slot[room..]));
    if stored > room {
        both.differs(&line, &format!("ok {}", stored.min(slot.len())), "refused 5 0")
    } else if slot[stored..room].iter().any(|byte| *byte != 0) {
        both.differs(&line, &format!("ok {stored}"), "refused 18 0")
    } else {
        both.call(&line)
    }
}

pub fn cookies(counts: &mut Counts, chance: &mut Chance, count: u64) {
    let mut both = BothLeaves { rust: Leaves::new(), counts };
    for _ in 0..count {
        let bits = chance.among(0, 63);
        let fanout = chance.word() >> bits;
        both.call(&format!("cookie {fanout}"));
        let good = wentuhoro::PersistentSettings::V1 { leaf_fanout: fanout }.serialize().to_vec();
        let mut cookies = vec![good.clone(), good[..chance.among(0, 63) as usize].to_vec()];
        cookies.push([good.clone(), vec![chance.word() as u8; chance.among(1, 40) as usize]].concat());
        let mut flipped = good.clone();
        flipped[chance.among(0, 63) as usize] ^= 1 << chance.among(0, 7);
        cookies.push(flipped);
        // Another version, and other padding, under a good check.
        for (from, to) in [(0, 2), (10, 60)] {
            let mut other = good.clone();
            other[from..to].iter_mut().for_each(|byte| *byte = chance.word() as u8);
            let check = (wentuhoro::crc32(&other[..60]) ^ 0xAF).to_le_bytes();
            other[60..].copy_from_slice(&check);
            cookies.push(other);
        }
        for cookie in cookies {
            for asked in [fanout, fanout ^ 1] {
                both.call(&format!("uncookie {asked} hex {} {}", cookie.len(), hex(&cookie)));
            }
        }
    }
}

/// Near every quotient where rounding matters: the f32 numbers beside live / k, for tips beside k.
pub fn cutoffs(counts: &mut Counts, chance: &mut Chance, limit: u64) {
    let mut both = BothLeaves { rust: Leaves::new(), counts };
    let mut pairs: Vec<(u64, u64)> = (1..limit).flat_map(|k| (1..=k).map(move |live| (live, k))).collect();
    pairs.extend((0..limit * 4).map(|_| { let k = chance.among(1, 4_096); (chance.among(1, k), k) }));
    for (live, k) in pairs {
        let middle = (live as f32 / k as f32).to_bits();
        for bits in middle - 2..=middle + 2 {
            for tip in [k, k + 1] {
                if f32::from_bits(bits) <= 1.0 {
                    both.call(&format!("cutoff {live} {tip} {bits}"));
                }
            }
        }
    }
    [1, 0x3F80_0000].iter().for_each(|bits| both.call(&format!("cutoff 0 1 {bits}")));
}

/// `write_batch`'s own pass over real files, for tips and high marks in all slabs at once.
pub fn truncations(counts: &mut Counts, chance: &mut Chance, passes: u64) {
    let (mut rust, mut ours) = (HeapStore::new(), OurHeap::new(2, 1, 80));
    for pass in 0..passes {
        let most = if pass % 10 == 9 { 65_536 } else { 256 };
        let rows: Vec<(u64, u64, u64)> = (0..78)
            .map(|slab| {
                let tip = chance.among(1, most);
                let near = (tip * 5 / 4 + chance.among(0, 2)).min(most - 1);
                let any = chance.among(0, most - 1);
                (slab, tip, chance.of(&[near, any]))
            })
            .collect();
        let told: Vec<String> = rows.iter().map(|(slab, tip, high)| format!("{slab} {tip} {high}")).collect();
        let line = format!("truncations 78 {}", told.join(" "));
        let said = answer(&mut rust, &line);
        let expected = cuts::passes_in_our_words(&rows, &said);
        counts.listed += u64::from(expected != said);
        counts.compare(&[], &line, &answer(&mut ours, &line), &expected);
    }
}
