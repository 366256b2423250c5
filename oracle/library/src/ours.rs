//! The library as a store that answers the oracle's lines.
use std::fmt::Write;
use std::sync::OnceLock;

use crate::rows::{kept_told, Carried};
use crate::tables::{row_told, PageRow, Refused, Tables, Update, ALLOCATORS, HINT, MOST_UPDATES, SLABS, USED, WAITING};
use crate::words::Words;
use crate::{snapshots, Store};

/// The call whose answers are changed on purpose, or nothing.
pub fn wrong() -> &'static str {
    static WRONG: OnceLock<String> = OnceLock::new();
    WRONG.get_or_init(|| std::env::var("ORACLE_WRONG").unwrap_or_default())
}

/// The answer, or where it is to be wrong another one.
pub fn unless_wrong(name: &str, mut answer: String) -> String {
    if name == wrong() && !answer.starts_with("refused") {
        match answer.pop() {
            Some(last @ '0'..='8') => answer.push((last as u8 + 1) as char),
            Some('9') => answer.push('8'),
            _ => answer = "refused 1 0".into(),
        }
    }
    answer
}

pub fn refused(status: Refused) -> String {
    format!("refused {} {}", status % 256, status / 256)
}

/// The words for an answer.
pub fn told<T>(answer: Result<T, Refused>, show: impl FnOnce(T) -> String) -> String {
    answer.map_or_else(refused, show)
}

pub fn ok(numbers: impl IntoIterator<Item = u64>) -> String {
    numbers.into_iter().fold("ok".into(), |mut line: String, number| {
        write!(line, " {number}").unwrap();
        line
    })
}

/// The words for a page's rows, one after the other.
fn page_told(rows: &[PageRow]) -> String {
    rows.iter().fold("ok".into(), |line, row| format!("{line} {}", row_told(row)))
}

/// A store whose capacities a line may change.
pub trait Resizable {
    fn resize(&mut self, ids: usize, slots: usize);
}

#[derive(Clone)]
pub struct Ours {
    pub tables: Tables,
    /// The last snapshot.
    pub written: Vec<u8>,
}

impl Resizable for Ours {
    fn resize(&mut self, ids: usize, slots: usize) {
        if (self.tables.ids, self.tables.slots) != (ids, slots) {
            self.tables = Tables::new(ids, slots);
        }
    }
}

pub fn updates(words: &mut Words) -> Vec<Update> {
    let count = words.number();
    (0..count)
        .map(|_| Update { store: words.next() == "s", id: words.number(), length: words.number(), seed: words.number() })
        .collect()
}

impl Ours {
    pub fn new(ids: usize, slots: usize) -> Ours {
        let mut tables = Tables::new(ids, slots);
        tables.fresh().unwrap();
        Ours { tables, written: vec![] }
    }

    /// A batch of n has n + 1 in the batch's first word.
    pub fn kept(&self) -> Option<Vec<(u64, u64)>> {
        let batch = self.tables.batch.values();
        let count = (batch[0].checked_sub(1)? as usize).min(MOST_UPDATES);
        Some((0..count).map(|at| (batch[1 + at], batch[1 + MOST_UPDATES + at])).collect())
    }

    /// The marks of an allocator as they count: 0 below the hint is held, 2 is where nothing waits, and so is any other number.
    fn marks(&self, allocator: usize) -> Vec<u8> {
        let tables = &self.tables;
        let slots = tables.slots;
        let marks = match allocator {
            0 => tables.id_marks.values(),
            _ => &tables.slot_marks.values()[(allocator - 1) * slots..allocator * slots],
        };
        let (hint, waiting) = (tables.tallies.values()[HINT + allocator], tables.tallies.values()[WAITING + allocator]);
        let counted = |(at, mark): (usize, &u8)| match mark {
            0 if at as u64 >= hint => 0,
            2 if waiting != 0 => 2,
            _ => 1,
        };
        marks.iter().enumerate().map(counted).collect()
    }

    /// What the oracle's `dump` says of the Rust's own state, said of the tables.
    fn dump(&self) -> String {
        let mut line = String::new();
        for allocator in 0..ALLOCATORS {
            let marks = self.marks(allocator);
            let used = self.tables.tallies.values()[USED + allocator] != 0;
            let tip = marks.iter().rposition(|mark| *mark != 0).map_or(usize::from(used), |last| last + 1);
            if allocator > 0 && tip == 0 {
                continue;
            }
            let slots = self.tables.slots;
            let entries = match allocator {
                0 => self.tables.locations.values(),
                _ => &self.tables.owners.values()[(allocator - 1) * slots..allocator * slots],
            };
            match allocator {
                0 => line += "ids",
                _ => write!(line, " slab {}", allocator - 1).unwrap(),
            }
            write!(line, " tip {tip} free ").unwrap();
            (0..tip).filter(|at| marks[*at] == 0).for_each(|at| write!(line, "{at},").unwrap());
            line += ". pending ";
            (0..tip).filter(|at| marks[*at] == 2).for_each(|at| write!(line, "{at},").unwrap());
            let (granted, freed) = (self.tables.tallies.values()[allocator], self.tables.tallies.values()[ALLOCATORS + allocator]);
            write!(line, ". counted {granted} {freed} entries ").unwrap();
            let entries = entries.iter().enumerate().filter(|(_, entry)| **entry != 0);
            entries.for_each(|(at, entry)| write!(line, "{at}:{entry},").unwrap());
            line += ".";
        }
        line
    }

    pub fn answer(&mut self, name: &str, words: &mut Words) -> Option<String> {
        let tables = &mut self.tables;
        let done = |()| "ok".to_string();
        let one = |number: u64| ok([number]);
        Some(match name {
            "new_id" => told(tables.new_id(), one),
            "offer" => told(tables.offer(&updates(words)), ok),
            "commit" => told(tables.commit(), done),
            "abandon" => told(tables.abandon(), done),
            "batch" => told(tables.offer(&updates(words)), |placed| told(tables.commit(), |()| ok(placed))),
            "release" => told(tables.release(), done),
            "lookup" => told(tables.lookup(words.number()), |(location, _)| one(location)),
            "found" => told(tables.lookup(words.number()), |(location, row)| format!("ok {location} {}", kept_told(&row))),
            "page" => {
                let count = words.number();
                let ids: Vec<u64> = (0..count).map(|_| words.number()).collect();
                told(tables.lookup_page(&ids), |rows| page_told(&rows))
            }
            "carried" => {
                let count = words.number();
                tables.told = Some((0..count).map(|_| Carried::read(words)).collect());
                done(())
            }
            "snapshot_length" => told(tables.snapshot_length(), one),
            "snapshot_write" => told(tables.snapshot_write(words.number()), |file| one(snapshots::check_of_bodies(&file))),
            "snapshot" => told(tables.snapshot_length().and_then(|length| tables.snapshot_write(length)), |mut file| {
                let is_read_back = snapshots::read_back(tables, &file);
                match wrong() {
                    "location" => snapshots::change_last_row(&mut file, snapshots::LOCATION),
                    "key_in_file" => snapshots::change_last_row(&mut file, snapshots::KEY_LENGTH),
                    _ => {}
                }
                let told = is_read_back.map_or_else(|broken| broken, |()| snapshots::told(&file));
                self.written = file;
                told
            }),
            "defrag" => told(tables.defrag(words.ratio()), |rows| {
                ok(std::iter::once(rows.len() as u64).chain(rows.into_iter().flat_map(|(id, location)| [id, location])))
            }),
            "reason" => told(tables.reason(words.number(), words.ratio()), |mut values| {
                match wrong() {
                    "reason_number" => values[0] ^= 1,
                    "reason_smaller" => values[3] += 1,
                    _ => {}
                }
                ok(values)
            }),
            "counters" => told(tables.stats(), ok),
            "counter" => told(tables.counters(), |all| {
                let (granted, freed) = all[words.number() as usize];
                ok([granted, freed])
            }),
            "dump" => self.dump(),
            _ => return None,
        })
    }

    /// The answer, unless a call broke what it was lent.
    pub fn unless_broken(&mut self, answer: String) -> String {
        self.tables.broken.take().map_or(answer, |broken| format!("broken: {broken}"))
    }
}

impl Store for Ours {
    fn restart(&mut self, rows: &[(u64, u64)], empty: bool) -> String {
        let answer = if empty { self.tables.fresh() } else { self.tables.rebuild(rows) };
        let answer = unless_wrong("rebuild", told(answer, |()| "ok".into()));
        self.unless_broken(answer)
    }

    fn call(&mut self, name: &str, words: &mut Words) -> Option<String> {
        let answer = self.answer(name, words)?;
        Some(self.unless_broken(unless_wrong(name, answer)))
    }
}

/// All that later answers can depend on, counters, high marks and what rows carry aside.
pub fn state(ours: &Ours) -> Vec<u8> {
    let tables = &ours.tables;
    let mut state = [tables.id_marks.values(), tables.slot_marks.values()].concat();
    let mut word = |word: u64| state.extend(word.to_le_bytes());
    tables.locations.values().iter().for_each(|entry| word(*entry));
    tables.owners.values().iter().for_each(|entry| word(*entry));
    tables.tallies.values()[USED..USED + 3 * (SLABS + 1)].iter().for_each(|entry| word(*entry));
    match ours.kept() {
        None => word(0),
        Some(kept) => {
            word(1 + kept.len() as u64);
            kept.iter().for_each(|(id, location)| {
                word(*id);
                word(*location);
            });
        }
    }
    state
}
