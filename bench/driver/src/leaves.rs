//! Classes, checks and frames.
use std::hint::black_box;

use crate::heap::probe;
use crate::ours::{self, Batch, Ours};
use crate::picture::Picture;
use crate::store::BATCH;
use crate::timing::best;

extern "C" {
    fn crc32(crc: u64, bytes: *const u8, len: u32) -> u64;
}

fn zlib(bytes: &[u8]) -> u32 {
    unsafe { crc32(0, bytes.as_ptr(), bytes.len() as u32) as u32 }
}

/// crc32fast's table code, whatever the machine has.
fn table(bytes: &[u8]) -> u32 {
    let mut hasher = crc32fast::Hasher::internal_new_baseline(0, 0);
    hasher.update(bytes);
    hasher.finalize()
}

fn ramp(n: usize) -> Vec<u8> {
    (0..n).map(|i| (i * 7 + 3) as u8).collect()
}

/// What was computed is not needed, only that it was.
fn ignore<T>(_: T) {}

/// About as many calls as fill a tenth of a millisecond.
fn calls_for(n: usize) -> u32 {
    (200_000 / (n + 20)).max(1) as u32
}

/// What a cookie and a slot of the smaller and larger slabs have before their check: the slab's size less four.
const CHECKED: [usize; 17] = [60, 76, 92, 108, 124, 156, 188, 220, 252, 508, 1020, 2044, 4092, 16380, 65532, 262140, 1048572];

/// Lengths that no slot and no cookie has: few bytes, and whole blocks of the tables with a few bytes around them.
const OTHERS: [usize; 15] = [0, 1, 4, 7, 8, 16, 31, 32, 64, 65, 68, 128, 130, 256, 1024];

fn checks(title: &str, lengths: &[usize], rounds: u32, picture: &mut Picture) {
    println!("\n### {title}: ns a call\n\n| bytes | ours | zlib | crc32fast's tables | zlib / ours | tables / ours |\n|--:|--:|--:|--:|--:|--:|");
    for &n in lengths {
        let bytes = ramp(n);
        assert_eq!(ours::crc32(&bytes), zlib(&bytes));
        assert_eq!(ours::crc32(&bytes), table(&bytes));
        let mut a = |calls| (0..calls).for_each(|_| ignore(black_box(ours::crc32(black_box(&bytes)))));
        let mut b = |calls| (0..calls).for_each(|_| ignore(black_box(zlib(black_box(&bytes)))));
        let mut c = |calls| (0..calls).for_each(|_| ignore(black_box(table(black_box(&bytes)))));
        let t = best(rounds, calls_for(n), &mut [&mut a, &mut b, &mut c]);
        println!("| {n} | {:.1} | {:.1} | {:.1} | {:.2} | {:.2} |", t[0], t[1], t[2], t[1] / t[0], t[2] / t[0]);
        picture.bar(&format!("{title}, beside crc32fast's tables").to_lowercase(), format!("{n} bytes"), t[2] / t[0]);
    }
}

const SIZES: [(&str, u64); 3] = [("below 60", 60), ("below 4 KiB", 4096), ("below 16 GiB", 1 << 34)];
/// So many batches of sizes in turn that no processor learns their classes by heart.
const BATCHES: usize = 64;

/// Sizes in no order that shows (splitmix64), the same in every run.
fn spread(most: u64) -> Vec<u64> {
    let mixed = |i: u64| {
        let a = i.wrapping_mul(0x9E37_79B9_7F4A_7C15);
        let b = (a ^ (a >> 30)).wrapping_mul(0xBF58_476D_1CE4_E5B9);
        let c = (b ^ (b >> 27)).wrapping_mul(0x94D0_49BB_1331_11EB);
        c ^ (c >> 31)
    };
    (1..=(BATCH * BATCHES) as u64).map(|i| mixed(i) % most).collect()
}

fn classes(rounds: u32, picture: &mut Picture) {
    println!("\n### Class: ns a call\n\n| sizes | ours | the Rust | the Rust / ours |\n|---|--:|--:|--:|");
    for (name, most) in SIZES {
        let sizes = spread(most);
        let agreed = sizes.iter().filter(|n| ours::class(**n) == u64::from(probe::class(**n))).count();
        assert!(agreed + 8 >= sizes.len(), "classes differ beyond the listed differences");
        let mut a = |calls| (0..calls).for_each(|_| sizes.iter().for_each(|n| ignore(black_box(ours::class(black_box(*n))))));
        let mut b = |calls| (0..calls).for_each(|_| sizes.iter().for_each(|n| ignore(black_box(probe::class(black_box(*n))))));
        let t = best(rounds, 2, &mut [&mut a, &mut b]);
        let each = |t: f64| t / sizes.len() as f64;
        println!("| {name} | {:.1} | {:.1} | {:.2} |", each(t[0]), each(t[1]), t[1] / t[0]);
        picture.bar("class", name, t[1] / t[0]);
    }
}

/// Of an update that asks for no slot.
const NO_SLAB: u8 = 79;

/// What it takes to read the library's constant array: it is laid on the stack, and copied from there.
fn table_of_sizes(rounds: u32) {
    println!("\n### The table of slab sizes: ns a call\n\n| | ours |\n|---|--:|");
    let mut a = |calls| (0..calls).for_each(|_| ignore(black_box(wentuhoro::slab_sizes())));
    let t = best(rounds, calls_for(78), &mut [&mut a]);
    println!("| all 78 into a list | {:.1} |", t[0]);
}

/// What an offer does first, with the Rust's walk: the class of each Store.
#[inline(never)]
fn walked(batch: &Batch) -> [u8; BATCH] {
    let mut slabs = [NO_SLAB; BATCH];
    for ((slab, store), length) in slabs.iter_mut().zip(&batch.stores).zip(&batch.lengths) {
        if *store != 0 {
            *slab = probe::class(*length);
        }
    }
    slabs
}

/// What 256 Stores take longer than 256 Frees: in an offer of ours that is refused once their classes are found, and in a loop that walks.
fn classes_in_an_offer(rounds: u32, picture: &mut Picture) {
    println!("\n### Class of each of 256 updates in an offer: ns an update\n\n| sizes | ours | the Rust's walk, in a loop | the Rust / ours |\n|---|--:|--:|--:|");
    let (mut one, mut other) = (Ours::new(BATCH, BATCH), Ours::new(BATCH, BATCH));
    for (name, most) in SIZES {
        let lengths = spread(most);
        let mut stores: Vec<Batch> = lengths.chunks(BATCH).map(|lengths| Batch::stores(0..BATCH as u64, |at| lengths[at])).collect();
        let mut frees: Vec<Batch> = stores.iter().map(|batch| Batch { stores: vec![0; BATCH], ..batch.clone() }).collect();
        let (stores_again, frees_again) = (stores.clone(), frees.clone());
        let mut a = |calls| (0..calls).for_each(|_| stores.iter_mut().for_each(|batch| one.offer_refused(black_box(batch))));
        let mut b = |calls| (0..calls).for_each(|_| frees.iter_mut().for_each(|batch| other.offer_refused(black_box(batch))));
        let mut c = |calls| (0..calls).for_each(|_| stores_again.iter().for_each(|batch| ignore(black_box(walked(black_box(batch))))));
        let mut d = |calls| (0..calls).for_each(|_| frees_again.iter().for_each(|batch| ignore(black_box(walked(black_box(batch))))));
        let t = best(rounds, 1, &mut [&mut a, &mut b, &mut c, &mut d]);
        let each = |with: f64, without: f64| ((with - without) / lengths.len() as f64).max(0.01);
        let (ours, rust) = (each(t[0], t[1]), each(t[2], t[3]));
        println!("| {name} | {ours:.2} | {rust:.2} | {:.2} |", rust / ours);
        picture.bar("class, in an offer", name, rust / ours);
    }
}

/// Slots that are full, or nearly; and three bytes in a small slot and in large ones, which are nearly all gap.
const SLOTS_AND_OBJECTS: [(usize, usize); 9] =
    [(64, 59), (64, 3), (256, 250), (1024, 1000), (1024, 3), (4096, 4090), (65536, 65528), (65536, 3), (1048576, 1048568)];

fn frames(rounds: u32) {
    println!("\n### Frames: ns a call, beside our check of the same bytes with one pass over them\n");
    println!("| slot | object | write | check + copy | ratio | read | check | ratio |\n|--:|--:|--:|--:|--:|--:|--:|--:|");
    for (size, n) in SLOTS_AND_OBJECTS {
        let object = ramp(n);
        let mut slot = vec![255u8; size];
        let mut copy = vec![255u8; size];
        assert_eq!(ours::frame_write(&mut slot, &object), 0);
        assert_eq!(ours::frame_read(&slot), Some(n as u64));
        let kept = slot.clone();
        let mut write = |calls| (0..calls).for_each(|_| ignore(black_box(ours::frame_write(black_box(&mut slot), black_box(&object)))));
        let mut check_copy = |calls| {
            (0..calls).for_each(|_| {
                let to = black_box(&mut copy);
                to[..n].copy_from_slice(black_box(&object));
                to[n..].fill(0);
                ignore(black_box(ours::crc32(&to[..size - 4])));
            })
        };
        let mut read = |calls| (0..calls).for_each(|_| ignore(black_box(ours::frame_read(black_box(&kept)))));
        let mut check = |calls| (0..calls).for_each(|_| ignore(black_box(ours::crc32(black_box(&kept[..size - 4])))));
        let t = best(rounds, calls_for(size), &mut [&mut write, &mut check_copy, &mut read, &mut check]);
        println!("| {size} | {n} | {:.1} | {:.1} | {:.2} | {:.1} | {:.1} | {:.2} |", t[0], t[1], t[0] / t[1], t[2], t[3], t[2] / t[3]);
    }
}

pub fn run(rounds: u32, picture: &mut Picture) {
    checks("Check", &CHECKED, rounds, picture);
    checks("Check of other lengths", &OTHERS, rounds, picture);
    classes(rounds, picture);
    classes_in_an_offer(rounds, picture);
    table_of_sizes(rounds);
    frames(rounds);
}
