//! The library as a whole heap: the store, and its slots in memory where the Rust has files.
use std::collections::HashMap;
use std::io::BufRead;

use crate::ours::{ok, refused, unless_wrong, updates, Ours, Resizable};
use crate::tables::{Refused, Tables, Update, HIGH, SLABS};
use crate::words::{hex, Words};
use crate::Store;
use wentuhoro::{Slab, SLAB_SIZES};

pub struct OurHeap {
    pub ours: Ours,
    slots: HashMap<(usize, u64), Vec<u8>>,
    file_lengths: [u64; SLABS],
    t: u64,
}

fn address(location: u64) -> (usize, u64) {
    ((location >> 56) as usize - 1, location & ((1 << 56) - 1))
}

/// A truncation of every slab, each cut reported: files cut, bytes given back.
fn cut_all(tables: &mut Tables, file_lengths: &mut [u64; SLABS], t: u64) -> Result<(u64, u64), Refused> {
    let (mut cuts, mut given_back) = (0, 0);
    for slab in 0..SLABS {
        if let Some((length, back)) = tables.truncation(slab as u64, t)? {
            tables.cut_done(slab as u64, t)?;
            file_lengths[slab] = length;
            cuts += 1;
            given_back += back;
        }
    }
    Ok((cuts, given_back))
}

impl OurHeap {
    /// `t` is 80 in the Rust: its FILE_TARGET_FILL_RATIO.
    pub fn new(ids: usize, slots: usize, t: u64) -> OurHeap {
        OurHeap { ours: Ours::new(ids, slots), slots: HashMap::new(), file_lengths: [0; SLABS], t }
    }

    fn write(&mut self, update: &Update, location: u64) {
        let (slab, slot) = address(location);
        let size = SLAB_SIZES[slab];
        let object: Vec<u8> = (0..update.length).map(|i| update.seed.wrapping_add(i.wrapping_mul(7)) as u8).collect();
        let mut bytes = vec![0; size as usize];
        Slab::write(&mut bytes, &object).expect("the object fits the slot of its class");
        self.slots.insert((slab, slot), bytes);
        self.file_lengths[slab] = self.file_lengths[slab].max((slot + 1) * size);
    }

    /// `write_batch`: offer, the slots written, commit, every file that is too long cut.
    fn batch(&mut self, batch: &[Update]) -> Result<String, Refused> {
        let placed = self.ours.tables.offer(batch)?;
        let stores = || batch.iter().zip(&placed).filter(|(update, _)| update.store);
        stores().for_each(|(update, location)| self.write(update, *location));
        self.ours.tables.commit()?;
        let (cuts, given_back) = cut_all(&mut self.ours.tables, &mut self.file_lengths, self.t)?;
        let written = stores().map(|(update, _)| update.length).sum();
        let mut files: Vec<usize> = stores().map(|(_, location)| address(*location).0).collect();
        files.sort_unstable();
        files.dedup();
        Ok(ok([cuts, given_back, written, files.len() as u64]))
    }

    fn read(&mut self, id: u64) -> String {
        let location = match self.ours.tables.lookup(id) {
            Err(_) => return "none".into(),
            Ok((location, _)) => location,
        };
        match Slab::read(&self.slots[&address(location)]) {
            Err(refusal) => format!("refused {} {}", refusal.kind.number(), refusal.index),
            Ok(object) => ok([object.len() as u64, u64::from(wentuhoro::crc32(object))]),
        }
    }

    /// For rows `SLAB TIP HIGH`: one object in slot TIP - 1, the high mark set, a file as long as the mark says; then a truncation of every
    /// slab. For each row the file's length and the high mark after it.
    fn truncations(&mut self, words: &mut Words) -> Result<String, Refused> {
        let count = words.number();
        let rows: Vec<(u64, u64, u64)> = (0..count).map(|_| (words.number(), words.number(), words.number())).collect();
        let slots = rows.iter().map(|(_, tip, high)| *tip.max(&(high + 1))).max().unwrap_or(1);
        let mut tables = Tables::new(SLABS + 1, slots as usize);
        let located = |(at, row): (usize, &(u64, u64, u64))| (at as u64 + 1, ((row.0 + 1) << 56) + row.1 - 1);
        tables.rebuild(&rows.iter().enumerate().map(located).collect::<Vec<_>>())?;
        let mut file_lengths = [0; SLABS];
        for (slab, tip, high) in &rows {
            tables.tallies.values_mut()[HIGH + *slab as usize] = *high;
            file_lengths[*slab as usize] = tip.max(&(high + 1)) * SLAB_SIZES[*slab as usize];
        }
        let (cuts, given_back) = cut_all(&mut tables, &mut file_lengths, self.t)?;
        self.ours.tables.broken = tables.broken.take();
        let after = |slab: u64| [file_lengths[slab as usize], tables.tallies.values()[HIGH + slab as usize]];
        Ok(ok([cuts, given_back].into_iter().chain(rows.iter().flat_map(|(slab, ..)| after(*slab)))))
    }

    fn answer(&mut self, name: &str, words: &mut Words) -> Option<String> {
        Some(match name {
            "batch" => self.batch(&updates(words)).unwrap_or_else(refused),
            "read" => self.read(words.number()),
            "slot" => {
                let bytes = &self.slots[&(words.number() as usize, words.number())];
                let (body, check) = bytes.split_at(bytes.len() - 4);
                format!("ok {} {}", wentuhoro::crc32(body), hex(check))
            }
            "high" => ok([self.ours.tables.tallies.values()[HIGH + words.number() as usize]]),
            "file_length" => ok([self.file_lengths[words.number() as usize]]),
            "truncations" => self.truncations(words).unwrap_or_else(refused),
            _ => return self.ours.answer(name, words),
        })
    }
}

impl Resizable for OurHeap {
    fn resize(&mut self, ids: usize, slots: usize) {
        self.ours.resize(ids, slots);
    }
}

impl Store for OurHeap {
    fn restart(&mut self, rows: &[(u64, u64)], empty: bool) -> String {
        if empty {
            self.slots.clear();
            self.file_lengths = [0; SLABS];
        }
        self.ours.restart(rows, empty)
    }

    fn call(&mut self, name: &str, words: &mut Words) -> Option<String> {
        let answer = self.answer(name, words)?;
        Some(self.ours.unless_broken(unless_wrong(name, answer)))
    }
}

/// What the oracle's `morning` does on the Rust: `ID LENGTH` a line, stored in batches of 250 in a fresh store.
pub fn print_morning() {
    let mut tables = Tables::new(65_536, 65_536);
    tables.fresh().unwrap();
    let mut refill = vec![];
    for line in std::io::stdin().lock().lines() {
        let line = line.unwrap();
        let mut words = Words::of(&line);
        let update = Update { store: true, id: words.number(), length: words.number(), seed: 0 };
        assert_eq!(tables.new_id(), Ok(update.id), "ids are listed from 1 on");
        refill.push(update);
    }
    for batch in refill.chunks(250) {
        tables.offer(batch).map(|_| tables.commit().unwrap()).unwrap_or_else(|status| panic!("{}", refused(status)));
    }
    for update in refill {
        let (slab, slot) = address(tables.lookup(update.id).unwrap().0);
        println!("{} {slab} {slot}", update.id);
    }
}
