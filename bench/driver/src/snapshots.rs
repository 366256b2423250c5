//! A snapshot of 65,535 rows, of version 2 and with keys, written from the store's tables and read into lists, beside plain loops of Rust that do the
//! same: the writer looks at each row's tables as ours does, the reader at each byte that ours looks at. Their check is crc32fast's, with what the
//! machine has, and with its tables.
use std::hint::black_box;

use crate::ours::{brought, snapshot_read, Ours, Rows, CARRIED_WIDTH, KEY};
use crate::picture::Picture;
use crate::store::{Table, CAPACITY};
use crate::timing::best;

const BLOCK: usize = 512;
const BLOCK_ROWS: usize = 5;
const ROW: usize = 96;
const MOST_KEY: usize = 64;
const HEAD: usize = 8;
const CHECK: usize = BLOCK - 4;

type Check = fn(&[u8]) -> u32;

fn tables(bytes: &[u8]) -> u32 {
    let mut hasher = crc32fast::Hasher::internal_new_baseline(0, 0);
    hasher.update(bytes);
    hasher.finalize()
}

const CHECKS: [(&str, Check); 2] = [("crc32fast", crc32fast::hash), ("crc32fast's tables", tables)];

fn word(bytes: &[u8], at: usize) -> u64 {
    u64::from_le_bytes(bytes[at..at + 8].try_into().unwrap())
}

fn half(bytes: &[u8], at: usize) -> usize {
    u16::from_le_bytes(bytes[at..at + 2].try_into().unwrap()) as usize
}

/// Whether an id's slot is held by it.
fn agrees(store: &Ours, id: usize) -> bool {
    let (slab, slot) = ((store.locations[id] >> 56) as usize, (store.locations[id] & ((1 << 56) - 1)) as usize);
    let at = slab.wrapping_sub(1).wrapping_mul(store.slots) + slot;
    slot < store.slots && store.slot_marks.get(at) == Some(&1) && store.owners[at] == id as u64
}

fn sign(block: &mut [u8], number: usize, count: usize, check: Check) {
    block[HEAD + ROW * count..CHECK].fill(0);
    block[..4].copy_from_slice(&(number as u32).to_le_bytes());
    block[4..6].copy_from_slice(&(count as u16).to_le_bytes());
    block[6..8].copy_from_slice(&2u16.to_le_bytes());
    let sum = check(&block[..CHECK]) ^ 0xAF;
    block[CHECK..].copy_from_slice(&sum.to_le_bytes());
}

#[inline(never)]
fn plain_write(store: &Ours, file: &mut [u8], check: Check) -> bool {
    let (mut number, mut count) = (0, 0);
    for id in 1..store.ids {
        if store.id_marks[id] != 1 || store.locations[id] == 0 {
            continue;
        }
        if !agrees(store, id) {
            return false;
        }
        if count == BLOCK_ROWS {
            sign(&mut file[BLOCK * number..BLOCK * (number + 1)], number, count, check);
            (number, count) = (number + 1, 0);
        }
        let row = &mut file[BLOCK * number + HEAD + ROW * count..][..ROW];
        row[..8].copy_from_slice(&(id as u64).to_le_bytes());
        let (collection, key) = store.carried[CARRIED_WIDTH * id..CARRIED_WIDTH * (id + 1)].split_at(8);
        row[8..16].copy_from_slice(collection);
        row[16..24].copy_from_slice(&store.locations[id].to_le_bytes());
        row[24..].copy_from_slice(key);
        count += 1;
    }
    sign(&mut file[BLOCK * number..BLOCK * (number + 1)], number, count, check);
    true
}

#[inline(never)]
fn plain_read(file: &[u8], rows: &mut Rows, check: Check) -> Option<usize> {
    let blocks = file.len() / BLOCK;
    let (mut read, mut last) = (0, None);
    for (number, block) in file.chunks_exact(BLOCK).enumerate() {
        let count = half(block, 4);
        let is_count = if number + 1 < blocks { count == BLOCK_ROWS } else { count <= BLOCK_ROWS && (count > 0 || blocks == 1) };
        let is_right = block[CHECK..] == (check(&block[..CHECK]) ^ 0xAF).to_le_bytes()
            && half(block, 6) == 2
            && block[..4] == (number as u32).to_le_bytes()
            && is_count
            && block[HEAD + ROW * count..CHECK].iter().all(|byte| *byte == 0);
        if !is_right {
            return None;
        }
        for row in block[HEAD..HEAD + ROW * count].chunks_exact(ROW) {
            let id = word(row, 0);
            let length = row[24] as usize;
            if last >= Some(id) || length > MOST_KEY || row[25 + length..].iter().any(|byte| *byte != 0) {
                return None;
            }
            last = Some(id);
            rows.ids[read] = id;
            let carried = &mut rows.carried[CARRIED_WIDTH * read..CARRIED_WIDTH * (read + 1)];
            carried[..8].copy_from_slice(&row[8..16]);
            carried[8..16].copy_from_slice(&(length as u64).to_le_bytes());
            carried[16..].copy_from_slice(&row[25..25 + MOST_KEY]);
            rows.locations[read] = word(row, 16);
            read += 1;
        }
    }
    Some(read)
}

fn full_store(slabs: u64) -> Ours {
    let ids: Vec<u64> = (1..CAPACITY as u64).collect();
    let locations: Vec<u64> = ids.iter().map(|id| ((id % slabs + 1) << 56) + id / slabs).collect();
    let carried: Vec<u8> = ids.iter().flat_map(|id| brought(id.wrapping_mul(0x9E37_79B9_7F4A_7C15), KEY)).collect();
    let mut store = Ours::new(CAPACITY, CAPACITY);
    store.rebuild(&ids, &locations, &carried);
    store
}

pub fn run(rounds: u32, picture: &mut Picture) {
    let mut table = Table::new(picture, "snapshot of 65,535 rows with keys of 16 bytes", "ns a row, the Rust a plain loop");
    let count = CAPACITY - 1;
    let each = |time: f64| time / count as f64;
    for (what, slabs) in [("in one slab", 1), ("in 78 slabs", 78)] {
        let mut store = full_store(slabs);
        let mut file = vec![255; store.snapshot_length()];
        let mut again = file.clone();
        store.snapshot_write(&mut file);
        for (name, check) in CHECKS {
            assert!(plain_write(&store, &mut again, check) && again == file);
            let (mut ours, other) = (full_store(slabs), &store);
            let mut a = |calls| (0..calls).for_each(|_| ours.snapshot_write(black_box(&mut file)));
            let mut b = |calls| (0..calls).for_each(|_| assert!(plain_write(black_box(other), black_box(&mut again), check)));
            let t = best(rounds, 1, &mut [&mut a, &mut b]);
            table.row(&format!("written, {what}, beside {name}"), each(t[0]), each(t[1]));
        }
    }
    let mut store = full_store(1);
    let mut file = vec![0; store.snapshot_length()];
    store.snapshot_write(&mut file);
    let most = file.len() / BLOCK * BLOCK_ROWS;
    let (mut rows, mut listed) = (Rows::new(most), Rows::new(most));
    for (name, check) in CHECKS {
        assert_eq!((snapshot_read(&file, &mut rows), plain_read(&file, &mut listed, check)), (Ok(count), Some(count)));
        assert!(rows == listed);
        let mut a = |calls| (0..calls).for_each(|_| { black_box(snapshot_read(black_box(&file), &mut rows)).unwrap(); });
        let mut b = |calls| (0..calls).for_each(|_| { black_box(plain_read(black_box(&file), &mut listed, check)).unwrap(); });
        let t = best(rounds, 1, &mut [&mut a, &mut b]);
        table.row(&format!("read into lists, beside {name}"), each(t[0]), each(t[1]));
    }
    let rows = |calls| (0..calls).for_each(|_| assert_eq!(wentuhoro::snapshot::Rows::new(black_box(&file)).count(), count));
    let steps = best(rounds.div_ceil(8), 1, &mut [&mut { rows }]);
    table.ours_alone("read row by row, its block judged with each", each(steps[0]));
    let length = best(rounds, 1, &mut [&mut |calls| (0..calls).for_each(|_| { black_box(store.snapshot_length()); })]);
    table.ours_alone("length asked for", each(length[0]));
}
