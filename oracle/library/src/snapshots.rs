//! Snapshots beside a writer of their own, which takes the check of `crc32fast`. What is written is of version 2; of version 1 files are made for
//! the readers alone.
use crate::guarded::Guarded;
use crate::ours::{ok, refused};
use crate::rows::{Carried, Kept, CARRIED_WIDTH};
use crate::tables::Tables;
use wentuhoro::raw;

const BLOCK: usize = 512;
const BODY: usize = 508;
const HEAD: usize = 8;
/// By version: how many rows a block has room for, and a row's bytes.
const ROWS: [usize; 3] = [0, 20, 5];
const ROW: [usize; 3] = [0, 24, 96];
/// Where a row has its location, its key's length, its key.
pub const LOCATION: usize = 16;
pub const KEY_LENGTH: usize = 24;
const KEY: usize = 25;

#[derive(Clone, PartialEq)]
pub struct Row {
    pub id: u64,
    pub location: u64,
    pub kept: Kept,
}

impl Row {
    /// The location stands after the collection; version 1 has nothing behind it.
    fn bytes(&self, version: usize) -> Vec<u8> {
        let all = [&self.id.to_le_bytes(), &self.kept[..8], &self.location.to_le_bytes(), &self.kept[8..]].concat();
        all[..ROW[version]].to_vec()
    }

    fn without_key(&self) -> Row {
        let mut kept = [0; CARRIED_WIDTH];
        kept[..8].copy_from_slice(&self.kept[..8]);
        Row { kept, ..*self }
    }
}

/// The file of these rows, which ascend by id.
pub fn file_of(rows: &[Row], version: usize) -> Vec<u8> {
    let mut file = vec![];
    let most = ROWS[version];
    for number in 0..rows.len().div_ceil(most).max(1) {
        let rows = &rows[most * number..rows.len().min(most * (number + 1))];
        let mut block = (number as u32).to_le_bytes().to_vec();
        block.extend([rows.len() as u8, 0, version as u8, 0]);
        rows.iter().for_each(|row| block.extend(row.bytes(version)));
        block.resize(BODY, 0);
        file.extend(signed(&block));
    }
    file
}

/// A block's body and its check.
fn signed(body: &[u8]) -> Vec<u8> {
    let check = crc32fast::hash(body) ^ 0xAF;
    [body, &check.to_le_bytes()].concat()
}

/// The check over the blocks' bodies. One over the whole file would say nothing but its length: the check at a block's end undoes what the
/// block has made of it.
pub fn check_of_bodies(file: &[u8]) -> u64 {
    let bodies: Vec<u8> = file.chunks(BLOCK).flat_map(|block| block.iter().take(BODY)).copied().collect();
    u64::from(crc32fast::hash(&bodies))
}

/// How a file is told: its length, and the check over its blocks' bodies.
pub fn told(file: &[u8]) -> String {
    ok([file.len() as u64, check_of_bodies(file)])
}

/// The same of the file that these rows make, where it is the one written, byte for byte.
pub fn expected(rows: &[Row], written: &[u8]) -> String {
    let file = file_of(rows, 2);
    match file.iter().zip(written).position(|(right, byte)| right != byte) {
        None if file.len() == written.len() => told(&file),
        None => format!("{} bytes, of which {} were written", file.len(), written.len()),
        Some(at) => format!("{} bytes, of which byte {at} is {}, and {} was written", file.len(), file[at], written[at]),
    }
}

/// A byte of the last row is another, and its block is signed again; on purpose. A file without rows is left as it is.
pub fn change_last_row(file: &mut Vec<u8>, part: usize) {
    let block = file.split_off(file.len() - BLOCK);
    let mut body = block[..BODY].to_vec();
    let rows = usize::from(body[4]);
    if rows > 0 {
        body[HEAD + ROW[2] * (rows - 1) + part] ^= 1;
    }
    file.extend(signed(&body));
}

/// The file's rows, step by step.
fn steps(file: &[u8]) -> Result<Vec<Row>, String> {
    let lent = Guarded::of(file);
    let (mut rows, mut block, mut row) = (vec![], 0, 0);
    loop {
        let mut values = Guarded::unwritten(8);
        let status = unsafe { raw::wentuhoro_snapshot_step(lent.as_ptr(), lent.len(), block, row, values.as_mut_ptr(), values.len()) };
        if !values.canaries_live() || lent != Guarded::of(file) {
            return Err("broken: a step wrote what it was lent".into());
        }
        match (status, values.values()) {
            (0, [0, 0, 0, 0, 0, 0, 0, 0]) => return Ok(rows),
            (0, &[1, id, collection, location, next_block, next_row, key_at, key_length]) => {
                let version = usize::from(file[6]);
                if key_at as usize != block * BLOCK + HEAD + row * ROW[version] + KEY || key_length > 64 {
                    return Err("broken: a key that stands elsewhere".into());
                }
                let key = if key_length == 0 { &[] } else { &file[key_at as usize..][..key_length as usize] };
                rows.push(Row { id, location, kept: Carried::new(collection, key_length, key).kept() });
                (block, row) = (next_block as usize, next_row as usize);
            }
            (0, _) => return Err("broken: a step that is none".into()),
            _ => return Err(refused(status)),
        }
    }
}

/// The file's rows at once, into lists with a row to spare.
fn lists(file: &[u8]) -> Result<Vec<Row>, String> {
    let most = file.len() / BLOCK * ROWS[usize::from(file[6])] + 1;
    let lent = Guarded::of(file);
    let (mut ids, mut locations, mut count) = (Guarded::unwritten(most), Guarded::unwritten(most), Guarded::unwritten(1));
    let mut carried = Guarded::<u8>::unwritten(most * CARRIED_WIDTH);
    let status = unsafe {
        raw::wentuhoro_snapshot_read(
            lent.as_ptr(), lent.len(), ids.as_mut_ptr(), most, locations.as_mut_ptr(), most, carried.as_mut_ptr(), carried.len(),
            count.as_mut_ptr(), 1,
        )
    };
    if status != 0 {
        return Err(refused(status));
    }
    let rows = count.values()[0] as usize;
    let past = [&ids.values()[rows..], &locations.values()[rows..]].concat();
    let kept = Guarded::<u64>::unwritten(past.len()).values() == past
        && Guarded::<u8>::unwritten((most - rows) * CARRIED_WIDTH).values() == &carried.values()[rows * CARRIED_WIDTH..];
    let canaries = [&ids, &locations, &count].into_iter().all(Guarded::canaries_live) && carried.canaries_live();
    if !kept || !canaries || lent != Guarded::of(file) {
        return Err("broken: a read wrote past its rows".into());
    }
    let mut listed = vec![];
    for (at, row) in carried.values().chunks(CARRIED_WIDTH).take(rows).enumerate() {
        let carried = Carried::of_bytes(row);
        if carried.is_too_long() || Carried::of_kept(&carried.kept()) != carried {
            return Err("broken: a row that was read carries more than its key".into());
        }
        listed.push(Row { id: ids.values()[at], location: locations.values()[at], kept: carried.kept() });
    }
    Ok(listed)
}

/// Whether the same rows in a file of version 1 are read both ways, with empty keys.
fn older_is_read(rows: &[Row]) -> Result<(), String> {
    let rows: Vec<Row> = rows.iter().map(Row::without_key).collect();
    let file = file_of(&rows, 1);
    match lists(&file)? == rows && steps(&file)? == rows {
        true => Ok(()),
        false => Err("broken: version 1 is read otherwise".into()),
    }
}

/// Whether the file is read both ways as the table has it, and a store rebuilt from it writes it again.
pub fn read_back(tables: &Tables, file: &[u8]) -> Result<(), String> {
    let rows = lists(file)?;
    if tables.watched {
        if rows != steps(file)? {
            return Err("broken: steps and lists differ".into());
        }
        older_is_read(&rows)?;
    }
    if rows.iter().any(|row| row.kept != tables.carried.values()[row.id as usize * CARRIED_WIDTH..][..CARRIED_WIDTH]) {
        return Err("broken: rows carry something else in the file".into());
    }
    let mut rebuilt = Tables::new(tables.ids, tables.slots);
    rebuilt.told = Some(rows.iter().map(|row| Carried::of_kept(&row.kept)).collect());
    rebuilt.rebuild(&rows.iter().map(|row| (row.id, row.location)).collect::<Vec<_>>()).map_err(refused)?;
    let again = rebuilt.snapshot_write(file.len() as u64).map_err(refused)?;
    match rebuilt.broken.take() {
        Some(broken) => Err(format!("broken: {broken}")),
        None if again != file => Err("broken: a store rebuilt from a snapshot writes another".into()),
        None => Ok(()),
    }
}
