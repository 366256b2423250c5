//! A kiosk's store carried on a stick: a folder with one file for each slab, a night's refill, the snapshot and the files copied to a second
//! folder, the store opened there, and the next night's refill on both. Every object goes to the same slot on both.
//!
//!     cargo run --example stick
use std::collections::BTreeSet;
use std::error::Error;
use std::fs::{self, File, OpenOptions};
use std::io::{Read, Seek, SeekFrom, Write};
use std::path::{Path, PathBuf};

use wentuhoro::{snapshot, Carried, RefusalKind, Row, Slab, SlabAddress, Store, Update, SLAB_SIZES};

const IDS: usize = 4_096;
const SLOTS: usize = 4_096;
/// The most updates of a batch.
const BATCH: usize = 256;
const ICONS: u64 = 1;
const FACES: u64 = 2;

type Answer<T> = Result<T, Box<dyn Error>>;

/// Objects in one file for each slab, named after the slot's size as sled names it, and the store that places them.
struct Kiosk {
    folder: PathBuf,
    store: Store,
}

/// An object to be stored: its collection, its low key in the page index, and its bytes.
struct Object {
    id: u64,
    collection: u64,
    key: String,
    bytes: Vec<u8>,
}

impl Object {
    fn carried(&self) -> Carried<'_> {
        Carried::of_collection(self.collection).with_key(self.key.as_bytes())
    }
}

impl Kiosk {
    fn slab_file(&self, slab: usize) -> PathBuf {
        self.folder.join(SLAB_SIZES[slab].to_string())
    }

    fn write(&self, at: SlabAddress, object: &[u8]) -> Answer<()> {
        let mut slot = vec![0; SLAB_SIZES[at.slab()] as usize];
        Slab::write(&mut slot, object)?;
        let mut file = OpenOptions::new().create(true).truncate(false).write(true).open(self.slab_file(at.slab()))?;
        file.seek(SeekFrom::Start(at.slot() as u64 * slot.len() as u64))?;
        Ok(file.write_all(&slot)?)
    }

    fn read(&self, id: u64) -> Answer<Vec<u8>> {
        let at = self.store.get_location_for_object(id)?;
        let mut slot = vec![0; SLAB_SIZES[at.slab()] as usize];
        let mut file = File::open(self.slab_file(at.slab()))?;
        file.seek(SeekFrom::Start(at.slot() as u64 * slot.len() as u64))?;
        file.read_exact(&mut slot)?;
        Ok(Slab::read(&slot)?.to_vec())
    }

    /// In batches: slots are taken, written and on the disk before the batch is committed.
    fn refill(&mut self, objects: &[Object]) -> Answer<Vec<SlabAddress>> {
        let mut placed = vec![];
        for batch in objects.chunks(BATCH) {
            let updates: Vec<Update> =
                batch.iter().map(|object| Update::store(object.id, object.bytes.len() as u64).carrying(object.carried())).collect();
            let slots: Vec<SlabAddress> = self.store.offer(&updates)?.into_iter().flatten().collect();
            for (object, at) in batch.iter().zip(&slots) {
                self.write(*at, &object.bytes)?;
            }
            for slab in slots.iter().map(|at| at.slab()).collect::<BTreeSet<_>>() {
                File::open(self.slab_file(slab))?.sync_data()?;
            }
            self.store.commit()?;
            placed.extend(slots);
        }
        Ok(placed)
    }

    /// Its objects go; their slots may be taken once nobody reads them.
    fn drop_objects(&mut self, ids: &[u64]) -> Answer<()> {
        for batch in ids.chunks(BATCH) {
            self.store.offer(&batch.iter().map(|&id| Update::free(id)).collect::<Vec<_>>())?;
            self.store.commit()?;
        }
        Ok(self.store.release()?)
    }

    fn objects_in(&self, collection: u64) -> usize {
        self.store.live().iter().filter(|row| row.carried.collection == collection).count()
    }
}

/// So many objects, with ids that the store gives: every fourth a face of some kilobytes, the others icons.
fn some_objects(store: &mut Store, count: usize, night: u8) -> Answer<Vec<Object>> {
    let object = |at: usize| {
        let id = store.allocate_object_id()?;
        let (collection, length) = if at % 4 == 3 { (FACES, 3_000 + at * 37 % 9_000) } else { (ICONS, 40 + at * 13 % 400) };
        let key = format!("{}/night-{night}/{at}", if collection == FACES { "faces" } else { "icons" });
        Ok(Object { id, collection, key, bytes: (0..length).map(|i| (i * 7 + at) as u8 ^ night).collect() })
    };
    (0..count).map(object).collect()
}

/// A row as a line, as `./run stick FILE` writes it: id collection slab slot key, the key in quotes where each byte of it can be printed and is no
/// quote, else in hex.
fn line(row: &Row) -> String {
    let is_text = row.carried.key.iter().all(|byte| matches!(byte, b' '..=b'~') && *byte != b'"');
    let key = match is_text {
        true => format!("\"{}\"", String::from_utf8_lossy(row.carried.key)),
        false => row.carried.key.iter().fold("0x".into(), |hex, byte| format!("{hex}{byte:02x}")),
    };
    format!("{} {} {} {} {key}", row.id, row.carried.collection, row.location.slab(), row.location.slot())
}

fn copy_files(from: &Path, to: &Path) -> Answer<usize> {
    let mut copied = 0;
    for entry in fs::read_dir(from)? {
        let entry = entry?;
        let copy = to.join(entry.file_name());
        fs::copy(entry.path(), &copy)?;
        File::open(copy)?.sync_all()?;
        copied += 1;
    }
    Ok(copied)
}

/// The snapshot and the slab files, on the stick before this returns: it may be pulled out then. How many slab files there are.
fn fill_stick(stick: &Path, bytes: &[u8], folder: &Path) -> Answer<usize> {
    let mut file = File::create(stick.join("snapshot"))?;
    file.write_all(bytes)?;
    file.sync_all()?;
    let files = copy_files(folder, stick)?;
    // The files' names, too.
    File::open(stick)?.sync_all()?;
    Ok(files)
}

fn carry(home: &Path) -> Answer<()> {
    let (folder, stick) = (home.join("kiosk"), home.join("stick"));
    fs::create_dir_all(&folder)?;
    fs::create_dir_all(&stick)?;
    let mut kiosk = Kiosk { folder: folder.clone(), store: Store::new(IDS, SLOTS)? };

    let night = some_objects(&mut kiosk.store, 1_000, 1)?;
    kiosk.refill(&night)?;
    let (icons, faces) = (kiosk.objects_in(ICONS), kiosk.objects_in(FACES));
    println!("The kiosk stores {} objects in a night: {icons} icons and {faces} faces.", night.len());
    let old: Vec<u64> = night.iter().map(|object| object.id).filter(|id| id % 3 == 0).collect();
    kiosk.drop_objects(&old)?;
    println!("In the morning {} of them go, and leave gaps.", old.len());

    // The store is at rest: no batch is open, nothing is pending, and every id is stored. What is opened from its snapshot, with the same
    // capacities, answers as it does, counters and truncation excepted.
    let bytes = kiosk.store.snapshot()?;
    let files = fill_stick(&stick, &bytes, &folder)?;
    println!("The stick gets a snapshot of {} bytes for {} rows, and {files} slab files.", bytes.len(), kiosk.store.live().len());

    let mut damaged = bytes.clone();
    damaged[1_000] ^= 1;
    let refusal = Store::from_snapshot(IDS, SLOTS, &damaged).unwrap_err();
    assert_eq!((refusal.kind, refusal.index), (RefusalKind::CheckDiffers, 1));
    println!("With one bit changed on the way, the laptop would refuse it: block {}, number {}.", refusal.index, refusal.kind.number());

    let carried = fs::read(stick.join("snapshot"))?;
    // A snapshot that is cut at a block's end is one of fewer rows: its length tells.
    assert_eq!(carried.len(), bytes.len());
    // Its rows are read without a store, too.
    let rows = snapshot::rows(&carried)?.iter().map(|row| row.unpack(SLOTS)).collect::<Result<Vec<Row>, _>>()?;
    assert_eq!(rows, kiosk.store.live());
    println!("Its rows can be read as they are, the first of them: {}", line(&rows[0]));
    let store = Store::from_snapshot(IDS, SLOTS, &carried)?;
    let mut laptop = Kiosk { folder: stick, store };
    assert_eq!(laptop.store.live(), kiosk.store.live());
    for row in laptop.store.live() {
        assert_eq!(laptop.read(row.id)?, kiosk.read(row.id)?);
    }
    println!("The laptop opens the store from the stick and reads every object, {} of them faces.", laptop.objects_in(FACES));

    let next = some_objects(&mut kiosk.store, 600, 2)?;
    let same = some_objects(&mut laptop.store, 600, 2)?;
    assert!(next.iter().map(|object| object.id).eq(same.iter().map(|object| object.id)));
    let (placed, placed_there) = (kiosk.refill(&next)?, laptop.refill(&same)?);
    let moved = placed.iter().zip(&placed_there).filter(|(here, there)| here != there).count();
    println!("The next refill, {} objects, is made on both: {moved} of them lie in another slot.", next.len());
    assert_eq!(moved, 0);
    assert_eq!(laptop.store.snapshot()?, kiosk.store.snapshot()?);
    println!("The two snapshots are the same, byte for byte.");
    Ok(())
}

fn main() -> Answer<()> {
    let home = std::env::temp_dir().join(format!("wentuhoro-stick-{}", std::process::id()));
    let carried = carry(&home);
    fs::remove_dir_all(&home)?;
    carried
}
