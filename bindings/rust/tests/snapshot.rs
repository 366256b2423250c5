//! Snapshots through the crate: whole ones of every number of rows and of both versions, and each bad one that document 02's sentences speak of.
use wentuhoro::snapshot::{self, PackedRow, Rows, BLOCK, BLOCK_ROWS};
use wentuhoro::{Carried, Refusal, RefusalKind, Row, SlabAddress, Store, Update};

const IDS: usize = 100;
/// The bytes of a row, as they are written, and of version 1.
const ROW: usize = 96;
const OLD_ROW: usize = 24;
const OLD_BLOCK_ROWS: usize = 20;
/// What comes of a row before its key's length, and before its key.
const KEY_LENGTH: usize = 24;
const KEY: usize = 25;

/// None of them zero.
static KEY_BYTES: [u8; 2 * IDS] = [0xA5; 2 * IDS];

/// Objects of every third slab and in no order of slots, with ids that leave gaps, and keys of every length in turn.
fn kiosk(objects: usize) -> Store {
    let row = |at: usize| {
        let location = SlabAddress::from_slab_slot(at % 26 * 3, IDS - 1 - at).unwrap();
        let carried = Carried::of_collection(u64::MAX - at as u64).with_key(&KEY_BYTES[..at * 7 % (Carried::MOST_KEY + 1)]);
        Row::new(2 * at as u64 + 1, location).carrying(carried)
    };
    let mut store = Store::new(2 * IDS, IDS).unwrap();
    store.rebuild(&(0..objects).map(row).collect::<Vec<_>>()).unwrap();
    store
}

fn bytes_of(objects: usize) -> Vec<u8> {
    kiosk(objects).snapshot().unwrap()
}

/// The check of each block, made anew.
fn signed(mut bytes: Vec<u8>) -> Vec<u8> {
    for block in bytes.chunks_mut(BLOCK) {
        let check = wentuhoro::crc32(&block[..BLOCK - 4]) ^ 0xAF;
        block[BLOCK - 4..].copy_from_slice(&check.to_le_bytes());
    }
    bytes
}

/// The same rows in version 1, of which the sentence is document 02's: their keys are lost.
fn old_bytes_of(objects: usize) -> Vec<u8> {
    let store = kiosk(objects);
    let mut bytes = vec![0; BLOCK * objects.div_ceil(OLD_BLOCK_ROWS).max(1)];
    for (number, block) in bytes.chunks_mut(BLOCK).enumerate() {
        let rows: Vec<Row> = store.live().into_iter().skip(number * OLD_BLOCK_ROWS).take(OLD_BLOCK_ROWS).collect();
        block[..4].copy_from_slice(&(number as u32).to_le_bytes());
        block[4..8].copy_from_slice(&[rows.len() as u8, 0, 1, 0]);
        let words = rows.iter().flat_map(|row| [row.id, row.carried.collection, row.location.packed()]);
        block[8..].chunks_mut(8).zip(words).for_each(|(to, word)| to.copy_from_slice(&word.to_le_bytes()));
    }
    signed(bytes)
}

/// Where a row starts.
fn row_at(row: usize) -> usize {
    row / BLOCK_ROWS * BLOCK + 8 + row % BLOCK_ROWS * ROW
}

/// Bytes from one place on written over, and signed.
fn with(mut bytes: Vec<u8>, at: usize, over: &[u8]) -> Vec<u8> {
    bytes[at..at + over.len()].copy_from_slice(over);
    signed(bytes)
}

fn refusal(bytes: &[u8]) -> (u8, usize) {
    let by_rows = Rows::new(bytes).find_map(Result::err);
    assert_eq!(snapshot::rows(bytes).err(), by_rows);
    assert_eq!(Store::from_snapshot(2 * IDS, IDS, bytes).err(), by_rows);
    let Refusal { kind, index, .. } = by_rows.unwrap();
    (kind.number(), index)
}

#[test]
fn what_is_written_is_read_and_rebuilt() {
    for objects in 0..IDS {
        let mut store = kiosk(objects);
        let bytes = store.snapshot().unwrap();
        assert_eq!(bytes.len(), BLOCK * objects.div_ceil(BLOCK_ROWS).max(1));
        let packed = snapshot::rows(&bytes).unwrap();
        assert!(Rows::new(&bytes).eq(packed.iter().map(|row| Ok(*row))));
        // A key is part of the bytes, and not a copy of them.
        let stands_in = |(row, at): (PackedRow, usize)| row.carried.key.is_empty() || row.carried.key.as_ptr() == bytes[row_at(at) + KEY..].as_ptr();
        assert!(packed.iter().copied().zip(0..).all(stands_in) && Rows::new(&bytes).map(Result::unwrap).zip(0..).all(stands_in));
        let rows: Vec<Row> = packed.iter().map(|row| row.unpack(IDS).unwrap()).collect();
        assert_eq!(rows, store.live());
        let mut opened = Store::from_snapshot(store.ids(), store.slots(), &bytes).unwrap();
        assert_eq!(opened.live(), rows);
        assert_eq!(opened.snapshot().unwrap(), bytes);
        let id = store.allocate_object_id().unwrap();
        assert_eq!(opened.allocate_object_id(), Ok(id));
        assert_eq!(opened.offer(&[Update::store(id, 59)]), store.offer(&[Update::store(id, 59)]));
    }
}

#[test]
fn a_byte_changed_is_seen() {
    a_byte_changed_of(bytes_of(8));
    a_byte_changed_of(old_bytes_of(23));
}

fn a_byte_changed_of(good: Vec<u8>) {
    for at in 0..good.len() {
        let mut flipped = good.clone();
        flipped[at] ^= 1 << (at % 8);
        assert_eq!(refusal(&flipped), (4, at / BLOCK), "byte {at}");
        // Signed again it has another version, something else is wrong with it, or it is another store's.
        let mended = signed(flipped);
        if at % BLOCK >= BLOCK - 4 {
            assert_eq!(mended, good);
        } else if let Some(refusal) = Rows::new(&mended).find_map(Result::err) {
            assert!([6, 19].contains(&refusal.kind.number()), "byte {at}: {refusal}");
        } else {
            assert!(Rows::new(&mended).ne(Rows::new(&good)), "byte {at}");
        }
    }
}

#[test]
fn no_whole_number_of_blocks() {
    let bytes = [bytes_of(5), vec![0; BLOCK]].concat();
    for length in [0, 1, 511, 513, 1_023] {
        assert_eq!(refusal(&bytes[..length]), (1, 0));
    }
}

#[test]
fn positions_outside() {
    // A full block, and one of three rows.
    for (bytes, full, ids) in [(bytes_of(8), BLOCK_ROWS, [9, 11, 13, 15]), (old_bytes_of(23), OLD_BLOCK_ROWS, [39, 41, 43, 45])] {
        let refused = |block, row| Rows::at(&bytes, block, row).next().unwrap().unwrap_err();
        for (block, row) in [(0, full), (0, usize::MAX), (1, 4), (1, full), (2, 0), (2, usize::MAX)] {
            assert_eq!((refused(block, row).kind, refused(block, row).index), (RefusalKind::WrongShape, block));
        }
        assert_eq!(refused(usize::MAX, usize::MAX).kind, RefusalKind::WrongShape);
        assert_eq!(Rows::at(&bytes, 1, 3).next(), None);
        assert_eq!(Rows::at(&bytes, 0, full - 1).map(|row| row.unwrap().id).collect::<Vec<_>>(), ids);
        // A row that no block has is known once the block is judged.
        let damaged = with(bytes, BLOCK, &[7]);
        assert_eq!(Rows::at(&damaged, 1, 4).next().unwrap().unwrap_err().kind, RefusalKind::WrongBlock);
    }
}

#[test]
fn counts() {
    for (full, rows) in [(bytes_of(5), BLOCK_ROWS as u16), (old_bytes_of(20), OLD_BLOCK_ROWS as u16)] {
        for count in [rows + 1, rows + 2, 21, 255, 256, 65_535] {
            assert_eq!(refusal(&with(full.clone(), 4, &count.to_le_bytes())), (19, 0));
        }
        // One less than there are leaves a row where zeros should be; none leaves all of them.
        for count in [0, rows - 1] {
            assert_eq!(refusal(&with(full.clone(), 4, &count.to_le_bytes())), (19, 0));
        }
        let mut empty_second = [full.clone(), vec![0; BLOCK]].concat();
        empty_second[BLOCK..BLOCK + 8].copy_from_slice(&[1, 0, 0, 0, 0, 0, full[6], 0]);
        assert_eq!(refusal(&signed(empty_second)), (19, 1));
    }
    // Short, and not the last: one row less than the block has room for, then 3 of which the ids ascend.
    for (mut short, rows, row) in [(bytes_of(8), BLOCK_ROWS, ROW), (old_bytes_of(23), OLD_BLOCK_ROWS, OLD_ROW)] {
        short[4] -= 1;
        short[8 + (rows - 1) * row..8 + rows * row].fill(0);
        assert_eq!(refusal(&signed(short)), (19, 0));
    }
}

#[test]
fn blocks_out_of_place() {
    for bytes in [bytes_of(15), old_bytes_of(60)] {
        let [first, second, third] = [0, 1, 2].map(|at| &bytes[BLOCK * at..BLOCK * (at + 1)]);
        assert_eq!(refusal(&[first, third, second].concat()), (19, 1));
        assert_eq!(refusal(&[first, first, third].concat()), (19, 1));
        assert_eq!(refusal(&[second, first].concat()), (19, 0));
        assert_eq!(refusal(third), (19, 0));
    }
}

#[test]
fn rows_out_of_order() {
    for (bytes, rows, width) in [(bytes_of(8), BLOCK_ROWS, ROW), (old_bytes_of(23), OLD_BLOCK_ROWS, OLD_ROW)] {
        let id = |at: usize| 8 + at / rows * BLOCK + at % rows * width;
        // The first of the second block: its id, or another row's, becomes that of the row before it, or a lower one.
        for row in [1, rows - 1, rows, rows + 1] {
            for earlier in [row - 1, 0] {
                let over = bytes[id(earlier)..id(earlier) + 8].to_vec();
                assert_eq!(refusal(&with(bytes.clone(), id(row), &over)), (19, row / rows), "row {row}");
            }
        }
    }
}

#[test]
fn keys() {
    // The rows of the first block have keys of 0, 7, 14, 21 and 28 bytes, those of the second of 35, 42 and 49.
    let bytes = bytes_of(8);
    for row in 0..8 {
        let (start, length) = (row_at(row), row * 7);
        assert_eq!(bytes[start + KEY_LENGTH] as usize, length);
        for over in [65, 66, 127, 128, 255] {
            assert_eq!(refusal(&with(bytes.clone(), start + KEY_LENGTH, &[over])), (19, row / BLOCK_ROWS), "row {row}, length {over}");
        }
        // One less leaves a byte of the key where zeros should be; one more is another key, which ends in a zero.
        if length > 0 {
            assert_eq!(refusal(&with(bytes.clone(), start + KEY_LENGTH, &[length as u8 - 1])), (19, row / BLOCK_ROWS));
        }
        let longer = with(bytes.clone(), start + KEY_LENGTH, &[length as u8 + 1]);
        assert_eq!(snapshot::rows(&longer).unwrap()[row].carried.key, [&KEY_BYTES[..length], &[0]].concat());
        // The first byte after the key, the last of the key's place, and the first and the last of the seven zeros.
        for at in [KEY + length, KEY + 63, KEY + 64, ROW - 1] {
            for over in [1, 128] {
                assert_eq!(refusal(&with(bytes.clone(), start + at, &[over])), (19, row / BLOCK_ROWS), "row {row}, byte {at}");
            }
        }
    }
    // The longest: only the seven zeros are left.
    let longest = with(with(bytes.clone(), row_at(2) + KEY_LENGTH, &[64]), row_at(2) + KEY, &KEY_BYTES[..64]);
    assert_eq!(Store::from_snapshot(2 * IDS, IDS, &longest).unwrap().find(5).unwrap().carried.key, &KEY_BYTES[..64]);
    for at in [KEY + 64, ROW - 1] {
        assert_eq!(refusal(&with(longest.clone(), row_at(2) + at, &[1])), (19, 0));
    }
}

#[test]
fn version_1_is_opened_and_written_as_version_2() {
    for objects in 0..IDS {
        let old = old_bytes_of(objects);
        let packed = snapshot::rows(&old).unwrap();
        assert!(Rows::new(&old).eq(packed.iter().map(|row| Ok(*row))));
        let store = kiosk(objects);
        let keyless: Vec<Row> = store.live().into_iter().map(|row| row.carrying(row.carried.with_key(b""))).collect();
        assert!(packed.iter().map(|row| row.unpack(IDS).unwrap()).eq(keyless.iter().copied()));
        let opened = Store::from_snapshot(2 * IDS, IDS, &old).unwrap();
        assert_eq!(opened.live(), keyless);
        let written = opened.snapshot().unwrap();
        assert_eq!((written.len(), &written[6..8]), (BLOCK * objects.div_ceil(BLOCK_ROWS).max(1), &[2, 0][..]));
        assert_eq!(Store::from_snapshot(2 * IDS, IDS, &written).unwrap().live(), keyless);
    }
}

#[test]
fn versions_are_not_mixed() {
    // Each block is right by itself, and its rows ascend: 5 or 20 rows, then those that come next, in the other version.
    let numbered = |block: &[u8], number: u8| with(block.to_vec(), 0, &[number]);
    let (new, old) = (bytes_of(60), old_bytes_of(60));
    let block = |bytes: &[u8], at: usize| bytes[BLOCK * at..BLOCK * (at + 1)].to_vec();
    let new_then_old = [block(&new, 0), block(&old, 1)].concat();
    assert_eq!(refusal(&new_then_old), (19, 1));
    let old_then_new = [block(&old, 0), numbered(&block(&new, 4), 1)].concat();
    assert_eq!(refusal(&old_then_new), (19, 1));
    // The first of another version is refused, and what follows it is not looked at.
    let later = [block(&old, 0), block(&old, 1), numbered(&block(&new, 8), 2), numbered(&block(&new, 9), 3)].concat();
    assert_eq!(refusal(&later), (19, 2));
    let back = [block(&new, 0), block(&new, 1), block(&old, 2), numbered(&block(&new, 11), 3)].concat();
    assert_eq!(refusal(&back), (19, 2));
    // Read from there on it is as good as any; the one before it is not judged, and says its version.
    assert_eq!(Rows::at(&later, 3, 0).next().unwrap().unwrap().id, 91);
    assert_eq!(Rows::at(&later, 2, 0).next().unwrap().unwrap_err().kind, RefusalKind::WrongBlock);
    // A damaged one is refused for its check first, and one of an unknown version with 6.
    let mut damaged = old_then_new.clone();
    damaged[BLOCK + 100] ^= 1;
    assert_eq!(refusal(&damaged), (4, 1));
    assert_eq!(refusal(&with(old_then_new, BLOCK + 6, &[3])), (6, 1));
}

#[test]
fn padding() {
    // Of a short block the first and the last byte of an unused row, and both ends of the zeros behind the rows.
    for (short, full, empty, row) in [(bytes_of(3), bytes_of(5), bytes_of(0), ROW), (old_bytes_of(3), old_bytes_of(20), old_bytes_of(0), OLD_ROW)] {
        for at in [8 + 3 * row, 487, 488, 507] {
            assert_eq!(refusal(&with(short.clone(), at, &[1])), (19, 0));
        }
        for at in [488, 507] {
            assert_eq!(refusal(&with(full.clone(), at, &[128])), (19, 0));
        }
        assert_eq!(refusal(&with(empty, 8, &[1])), (19, 0));
    }
}

#[test]
fn versions() {
    for version in [0u16, 3, 256, 257, 258, 65_535] {
        assert_eq!(refusal(&with(bytes_of(8), BLOCK + 6, &version.to_le_bytes())), (6, 1));
        assert_eq!(refusal(&with(old_bytes_of(23), BLOCK + 6, &version.to_le_bytes())), (6, 1));
        // Before what else is wrong with the block; and the check comes before that.
        let number = with(bytes_of(3), 0, &[9]);
        let mut wrong = with(number, 6, &version.to_le_bytes());
        assert_eq!(refusal(&wrong), (6, 0));
        wrong[508] ^= 1;
        assert_eq!(refusal(&wrong), (4, 0));
    }
}

#[test]
fn rows_that_no_store_holds() {
    let bytes = bytes_of(23);
    let opened = |ids, slots, bytes: &[u8]| Store::from_snapshot(ids, slots, bytes).map(|store| store.live().len());
    let refused = |kind, index| Err(Refusal { kind, index });
    // Read all the same: a rebuild refuses id 0, an id past the capacity, a location of none or of no slot, and one that came before.
    let location = |row: usize, over: u64| with(bytes.clone(), row_at(row) + 16, &over.to_le_bytes());
    let of_row_0 = u64::from_le_bytes(bytes[24..32].try_into().unwrap());
    for (bytes, expected) in [
        (with(bytes.clone(), 8, &[0; 8]), refused(RefusalKind::NoSuchId, 0)),
        (with(bytes.clone(), row_at(22), &[255; 8]), refused(RefusalKind::NoSuchId, 22)),
        (location(3, 0), refused(RefusalKind::OutOfRange, 3)),
        (location(4, u64::MAX), refused(RefusalKind::OutOfRange, 4)),
        (location(5, of_row_0), refused(RefusalKind::RepeatedLocation, 5)),
    ] {
        assert_eq!(snapshot::rows(&bytes).unwrap().len(), 23);
        assert_eq!(opened(2 * IDS, IDS, &bytes), expected);
    }
    // Other capacities: the last row's id is 45, the first row's slot 99.
    assert_eq!(opened(46, IDS, &bytes), Ok(23));
    assert_eq!(opened(45, IDS, &bytes), refused(RefusalKind::NoSuchId, 22));
    assert_eq!(opened(2 * IDS, IDS - 1, &bytes), refused(RefusalKind::OutOfRange, 0));
    assert_eq!(opened(1, IDS, &bytes), refused(RefusalKind::WrongShape, 0));
}

#[test]
fn rows_unpacked() {
    let carried = Carried::of_collection(7).with_key(b"lamp");
    let row = |location| PackedRow { id: 5, location, carried };
    let last = SlabAddress::from_slab_slot(77, IDS - 1).unwrap();
    assert_eq!(row(last.packed()).unpack(IDS), Ok(Row::new(5, last).carrying(carried)));
    // No object's; past the capacity; of no slab.
    for location in [0, last.packed() + 1, 1, u64::MAX] {
        assert_eq!(row(location).unpack(IDS), Err(Refusal { kind: RefusalKind::OutOfRange, index: 0 }));
    }
    assert_eq!(row(last.packed()).unpack(0), Err(Refusal { kind: RefusalKind::WrongShape, index: 0 }));
}

#[test]
fn cut_at_a_blocks_end() {
    // A snapshot of fewer rows, as the module says: only its length tells.
    for (bytes, rows) in [(bytes_of(15), BLOCK_ROWS), (old_bytes_of(60), OLD_BLOCK_ROWS)] {
        for blocks in 1..3 {
            assert_eq!(snapshot::rows(&bytes[..blocks * BLOCK]).unwrap(), snapshot::rows(&bytes).unwrap()[..blocks * rows]);
        }
    }
}
