//! The seven tables, guarded, and every exported store call on them.
//!
//! After each call: every canary lives; where it refused, every lent byte is as it was; where it granted, what it is lent for reading only
//! is; and rows carry what the last committed Store or the rebuild said. What is found broken is told in `broken`.
use crate::guarded::{Canary, Guarded};
use crate::rows::{kept_told, lent, Carried, Kept, CARRIED_WIDTH};
use wentuhoro::raw;

pub const SLABS: usize = 78;
pub const ALLOCATORS: usize = 79;
pub const BATCH_WORDS: usize = 513;
pub const TALLY_WORDS: usize = 473;
pub const MOST_UPDATES: usize = 256;
/// Ids of a page.
pub const MOST_ASKED: usize = 256;
/// What a reason answers.
pub const REASON_VALUES: usize = 7;
pub const USED: usize = 158;
pub const HINT: usize = 237;
pub const WAITING: usize = 316;
pub const HIGH: usize = 395;

/// A status above 0.
pub type Refused = u64;

#[derive(Clone)]
pub struct Tables {
    pub ids: usize,
    pub slots: usize,
    pub id_marks: Guarded<u8>,
    pub locations: Guarded<u64>,
    pub slot_marks: Guarded<u8>,
    pub owners: Guarded<u64>,
    pub batch: Guarded<u64>,
    pub tallies: Guarded<u64>,
    pub carried: Guarded<u8>,
    /// What the rows of the next offer or rebuild carry, where it was told; else it follows from the updates and rows.
    pub told: Option<Vec<Carried>>,
    /// What `carried` has to hold: the ids' rows, then the kept updates'.
    pub rows: Vec<Kept>,
    /// Id, and whether it is a Store, of each update of the last granted offer.
    offered: Vec<(u64, bool)>,
    /// Whether the tables are copied before each call, to compare them after it. Large ones are copied where a refusal is expected.
    pub watched: bool,
    pub broken: Option<String>,
}

/// A page's row: a refusal's number or 0, the location, what the row carries.
pub type PageRow = (u64, u64, Kept);

pub fn row_told((number, location, kept): &PageRow) -> String {
    format!("{number} {location} {}", kept_told(kept))
}

fn kept_at(rows: &[u8], at: usize) -> Kept {
    rows[at * CARRIED_WIDTH..][..CARRIED_WIDTH].try_into().unwrap()
}

#[derive(Clone, Copy, PartialEq, Eq)]
pub struct Update {
    pub store: bool,
    pub id: u64,
    pub length: u64,
    pub seed: u64,
}

macro_rules! pointer {
    (reads $tables:ident $table:ident) => { $tables.$table.as_ptr() };
    (writes $tables:ident $table:ident) => { $tables.$table.as_mut_ptr() };
}

macro_rules! lend {
    ($tables:ident, $call:ident: $($how:ident $table:ident),* $(; $($word:expr),*)?) => {{
        let before = $tables.watched.then(|| $tables.clone());
        let status = unsafe {
            raw::$call($tables.ids, $tables.slots, $(pointer!($how $tables $table), $tables.$table.len(),)* $($($word),*)?)
        };
        $tables.wrong_on_purpose(status);
        $tables.look_at_canaries();
        if let Some(before) = before {
            let may_write: &[&str] = if status == 0 { &[$(written!($how $table)),*] } else { &[] };
            $tables.look_at_tables(stringify!($call), &before, may_write);
        }
        status
    }};
}

macro_rules! written {
    (reads $table:ident) => { "" };
    (writes $table:ident) => { stringify!($table) };
}

impl Update {
    /// What hardly another update carries.
    fn carried(&self) -> Carried {
        Carried::some(self.id ^ self.seed << 16 ^ self.length << 24, self.store)
    }
}

fn granted<T>(status: u64, answer: T) -> Result<T, Refused> {
    if status == 0 { Ok(answer) } else { Err(status) }
}

impl Tables {
    /// Tables of the right lengths that hold rubbish: a fresh or a rebuild writes every word.
    pub fn new(ids: usize, slots: usize) -> Tables {
        Tables {
            ids,
            slots,
            id_marks: Guarded::unwritten(ids),
            locations: Guarded::unwritten(ids),
            slot_marks: Guarded::unwritten(SLABS * slots),
            owners: Guarded::unwritten(SLABS * slots),
            batch: Guarded::unwritten(BATCH_WORDS),
            tallies: Guarded::unwritten(TALLY_WORDS),
            carried: Guarded::unwritten((ids + MOST_UPDATES) * CARRIED_WIDTH),
            told: None,
            rows: vec![[u8::UNWRITTEN; CARRIED_WIDTH]; ids + MOST_UPDATES],
            offered: vec![],
            watched: ids.max(slots) <= 1_024,
            broken: None,
        }
    }

    pub fn fresh(&mut self) -> Result<(), Refused> {
        let status = lend!(
            self, wentuhoro_fresh: writes id_marks, writes locations, writes slot_marks, writes owners, writes batch, writes tallies,
            writes carried
        );
        if status == 0 {
            self.rows.fill([0; CARRIED_WIDTH]);
        }
        self.look_at_carried();
        granted(status, ())
    }

    /// A row of an object that lies there already carries what it did.
    fn carried_of(&self, rows: &[(u64, u64)]) -> Vec<Carried> {
        let carried = |&(id, location): &(u64, u64)| match self.locations.values().get(id as usize) {
            Some(known) if *known == location => Carried::of_kept(&self.rows[id as usize]),
            _ => Carried::some(id ^ location, true),
        };
        rows.iter().map(carried).collect()
    }

    pub fn rebuild(&mut self, rows: &[(u64, u64)]) -> Result<(), Refused> {
        let (ids, locations): (Vec<u64>, Vec<u64>) = rows.iter().copied().unzip();
        let told = self.told.take().unwrap_or_else(|| self.carried_of(rows));
        let carried = lent(&told);
        let (row_ids, row_locations, row_carried) = (Guarded::of(&ids), Guarded::of(&locations), Guarded::of(&carried));
        let status = lend!(
            self, wentuhoro_rebuild: writes id_marks, writes locations, writes slot_marks, writes owners, writes batch, writes tallies,
            writes carried;
            row_ids.as_ptr(), row_ids.len(), row_locations.as_ptr(), row_locations.len(), row_carried.as_ptr(), row_carried.len()
        );
        self.look_at_input(&row_ids, &ids);
        self.look_at_input(&row_locations, &locations);
        self.look_at_input(&row_carried, &carried);
        if status == 0 {
            self.rows.fill([0; CARRIED_WIDTH]);
            ids.iter().zip(told).for_each(|(id, carried)| self.rows[*id as usize] = carried.kept());
        }
        self.look_at_carried();
        granted(status, ())
    }

    pub fn new_id(&mut self) -> Result<u64, Refused> {
        let mut id = Guarded::unwritten(1);
        let status = lend!(self, wentuhoro_new_id: writes id_marks, reads batch, writes tallies; id.as_mut_ptr(), id.len());
        self.look_at_answer(&id, status);
        granted(status, id.values()[0])
    }

    /// The location, and what the row carries.
    pub fn lookup(&mut self, id: u64) -> Result<(u64, Kept), Refused> {
        let (mut location, mut row) = (Guarded::unwritten(1), Guarded::<u8>::unwritten(CARRIED_WIDTH));
        let status = lend!(
            self, wentuhoro_lookup: reads id_marks, reads locations, reads slot_marks, reads owners, reads tallies, reads carried;
            id, location.as_mut_ptr(), location.len(), row.as_mut_ptr(), row.len()
        );
        self.look_at_answer(&location, status);
        self.look_at_answer(&row, status);
        let row: Kept = row.values().try_into().unwrap();
        if status == 0 && self.rows[id as usize] != row {
            self.broken = Some(format!("{id} carries {}, not {}", kept_told(&self.rows[id as usize]), kept_told(&row)));
        }
        granted(status, (location.values()[0], row))
    }

    /// A row for each id. That it is what a lookup of its own answers is seen here.
    pub fn lookup_page(&mut self, ids: &[u64]) -> Result<Vec<PageRow>, Refused> {
        let (asked, mut numbers, mut found) = (Guarded::of(ids), Guarded::<u8>::unwritten(ids.len()), Guarded::unwritten(ids.len()));
        let mut rows = Guarded::<u8>::unwritten(ids.len() * CARRIED_WIDTH);
        let status = lend!(
            self, wentuhoro_lookup_page: reads id_marks, reads locations, reads slot_marks, reads owners, reads tallies, reads carried;
            asked.as_ptr(), asked.len(), numbers.as_mut_ptr(), numbers.len(), found.as_mut_ptr(), found.len(), rows.as_mut_ptr(), rows.len()
        );
        self.look_at_input(&asked, ids);
        self.look_at_answer(&numbers, status);
        self.look_at_answer(&found, status);
        self.look_at_answer(&rows, status);
        if status != 0 {
            return Err(status);
        }
        let row = |at: usize| (u64::from(numbers.values()[at]), found.values()[at], kept_at(rows.values(), at));
        let page: Vec<PageRow> = (0..ids.len()).map(row).collect();
        let watched = std::mem::replace(&mut self.watched, false);
        for (id, row) in ids.iter().zip(&page) {
            let single = self.lookup(*id).map_or_else(|number| (number, 0, [0; CARRIED_WIDTH]), |(location, kept)| (0, location, kept));
            if single != *row {
                self.broken = Some(format!("a page answers {id} with {}, a lookup with {}", row_told(row), row_told(&single)));
            }
        }
        self.watched = watched;
        Ok(page)
    }

    pub fn offer(&mut self, updates: &[Update]) -> Result<Vec<u64>, Refused> {
        let ids: Vec<u64> = updates.iter().map(|update| update.id).collect();
        // Any byte but 0 stores: 255 and down by the update's place.
        let stores: Vec<u8> = updates.iter().enumerate().map(|(at, update)| if update.store { 255 - (at % 255) as u8 } else { 0 }).collect();
        let lengths: Vec<u64> = updates.iter().map(|update| update.length).collect();
        let told = self.told.take().unwrap_or_else(|| updates.iter().map(Update::carried).collect());
        let carried = lent(&told);
        let (lent_ids, lent_stores, lent_lengths) = (Guarded::of(&ids), Guarded::of(&stores), Guarded::of(&lengths));
        let (lent_carried, mut placed) = (Guarded::of(&carried), Guarded::unwritten(updates.len()));
        let status = lend!(
            self, wentuhoro_offer: reads id_marks, reads locations, writes slot_marks, reads owners, writes batch, writes tallies,
            writes carried;
            lent_ids.as_ptr(), lent_ids.len(), lent_stores.as_ptr(), lent_stores.len(), lent_lengths.as_ptr(), lent_lengths.len(),
            lent_carried.as_ptr(), lent_carried.len(), placed.as_mut_ptr(), placed.len()
        );
        self.look_at_input(&lent_ids, &ids);
        self.look_at_input(&lent_stores, &stores);
        self.look_at_input(&lent_lengths, &lengths);
        self.look_at_input(&lent_carried, &carried);
        self.look_at_answer(&placed, status);
        if status == 0 {
            for (at, (update, carried)) in updates.iter().zip(told).enumerate() {
                self.rows[self.ids + at] = if update.store { carried.kept() } else { [0; CARRIED_WIDTH] };
            }
            self.offered = updates.iter().map(|update| (update.id, update.store)).collect();
        }
        self.look_at_carried();
        granted(status, placed.values().to_vec())
    }

    pub fn commit(&mut self) -> Result<(), Refused> {
        let status = lend!(
            self, wentuhoro_commit: writes id_marks, writes locations, writes slot_marks, writes owners, writes batch, writes tallies,
            writes carried
        );
        if status == 0 {
            for (at, (id, store)) in self.offered.iter().enumerate() {
                self.rows[*id as usize] = if *store { self.rows[self.ids + at] } else { [0; CARRIED_WIDTH] };
            }
        }
        self.look_at_carried();
        granted(status, ())
    }

    pub fn abandon(&mut self) -> Result<(), Refused> {
        granted(lend!(self, wentuhoro_abandon: writes slot_marks, writes batch, writes tallies), ())
    }

    pub fn release(&mut self) -> Result<(), Refused> {
        granted(lend!(self, wentuhoro_release: writes id_marks, writes slot_marks, reads batch, writes tallies), ())
    }

    pub fn stats(&mut self) -> Result<Vec<u64>, Refused> {
        let mut sums = Guarded::unwritten(4);
        let status = lend!(self, wentuhoro_stats: reads tallies; sums.as_mut_ptr(), sums.len());
        self.look_at_answer(&sums, status);
        granted(status, sums.values().to_vec())
    }

    pub fn counters(&mut self) -> Result<Vec<(u64, u64)>, Refused> {
        let (mut granted_, mut freed) = (Guarded::unwritten(ALLOCATORS), Guarded::unwritten(ALLOCATORS));
        let status = lend!(self, wentuhoro_counters: reads tallies; granted_.as_mut_ptr(), granted_.len(), freed.as_mut_ptr(), freed.len());
        self.look_at_answer(&granted_, status);
        self.look_at_answer(&freed, status);
        granted(status, granted_.values().iter().copied().zip(freed.values().iter().copied()).collect())
    }

    /// (id, location) of each row; the rows past the count keep what they held.
    pub fn defrag(&mut self, ratio: f32) -> Result<Vec<(u64, u64)>, Refused> {
        let rows = self.ids - 1;
        let (mut ids, mut locations, mut count) = (Guarded::unwritten(rows), Guarded::unwritten(rows), Guarded::unwritten(1));
        let status = lend!(
            self, wentuhoro_defrag: reads locations, reads slot_marks, reads owners, reads batch, reads tallies;
            ratio, ids.as_mut_ptr(), ids.len(), locations.as_mut_ptr(), locations.len(), count.as_mut_ptr(), count.len()
        );
        for answer in [&ids, &locations, &count] {
            self.look_at_answer(answer, status);
        }
        let listed = if status == 0 { count.values()[0] as usize } else { 0 };
        for list in [&ids, &locations] {
            if !list.values()[listed..].iter().all(|row| *row == u64::UNWRITTEN) {
                self.broken = Some("a row past the count was written".into());
            }
        }
        granted(status, ids.values().iter().copied().zip(locations.values().iter().copied()).take(listed).collect())
    }

    /// Its number, slab, slot, smaller slots, live slots, tip and line.
    pub fn reason(&mut self, id: u64, ratio: f32) -> Result<Vec<u64>, Refused> {
        let mut values = Guarded::unwritten(REASON_VALUES);
        let status = lend!(
            self, wentuhoro_reason: reads id_marks, reads locations, reads slot_marks, reads owners, reads batch, reads tallies;
            id, ratio, values.as_mut_ptr(), values.len()
        );
        self.look_at_answer(&values, status);
        granted(status, values.values().to_vec())
    }

    /// The length to cut to and the bytes given back, or nothing to keep.
    pub fn truncation(&mut self, slab: u64, t: u64) -> Result<Option<(u64, u64)>, Refused> {
        let mut cut = Guarded::unwritten(3);
        let status =
            lend!(self, wentuhoro_truncation: reads slot_marks, reads batch, writes tallies; slab, t, cut.as_mut_ptr(), cut.len());
        self.look_at_answer(&cut, status);
        let answer = match *cut.values() {
            [0, 0, 0] => None,
            [_, length, given_back] => Some((length, given_back)),
            _ => unreachable!(),
        };
        granted(status, answer)
    }

    pub fn cut_done(&mut self, slab: u64, t: u64) -> Result<(), Refused> {
        granted(lend!(self, wentuhoro_cut_done: reads slot_marks, reads batch, writes tallies; slab, t), ())
    }

    pub fn snapshot_length(&mut self) -> Result<u64, Refused> {
        let mut length = Guarded::unwritten(1);
        let status = lend!(
            self, wentuhoro_snapshot_length: reads id_marks, reads locations, reads batch, reads tallies;
            length.as_mut_ptr(), length.len()
        );
        self.look_at_answer(&length, status);
        granted(status, length.values()[0])
    }

    pub fn snapshot_write(&mut self, length: u64) -> Result<Vec<u8>, Refused> {
        let mut file = Guarded::<u8>::unwritten(length as usize);
        let status = lend!(
            self, wentuhoro_snapshot_write: reads id_marks, reads locations, reads slot_marks, reads owners, reads batch, reads tallies,
            reads carried;
            file.as_mut_ptr(), file.len()
        );
        self.look_at_answer(&file, status);
        granted(status, file.values().to_vec())
    }

    // -- what a call must leave

    fn look_at_canaries(&mut self) {
        let bytes = [&self.id_marks, &self.slot_marks, &self.carried].into_iter().all(Guarded::canaries_live);
        let words = [&self.locations, &self.owners, &self.batch, &self.tallies].into_iter().all(Guarded::canaries_live);
        if !(bytes && words) {
            self.broken = Some("a canary beside a table was written".into());
        }
    }

    fn look_at_tables(&mut self, call: &str, before: &Tables, may_write: &[&str]) {
        let kept = [
            ("id_marks", self.id_marks == before.id_marks),
            ("locations", self.locations == before.locations),
            ("slot_marks", self.slot_marks == before.slot_marks),
            ("owners", self.owners == before.owners),
            ("batch", self.batch == before.batch),
            ("tallies", self.tallies == before.tallies),
            ("carried", self.carried == before.carried),
        ];
        for (table, same) in kept {
            if !same && !may_write.contains(&table) {
                self.broken = Some(format!("{call} wrote {table}"));
            }
        }
    }

    fn look_at_carried(&mut self) {
        if self.watched && self.carried.values() != self.rows.as_flattened() {
            self.broken = Some("rows carry something else".into());
        }
    }

    fn look_at_input<T: Canary>(&mut self, lent: &Guarded<T>, as_it_was: &[T]) {
        if !lent.canaries_live() || lent.values() != as_it_was {
            self.broken = Some("a lent input was written".into());
        }
    }

    fn look_at_answer<T: Canary>(&mut self, answer: &Guarded<T>, status: u64) {
        if !answer.canaries_live() || (status != 0 && !answer.is_unwritten()) {
            self.broken = Some("a lent answer was written on a refusal, or beside it".into());
        }
    }

    fn wrong_on_purpose(&mut self, status: u64) {
        match crate::ours::wrong() {
            "canary" => self.locations.write_past_the_end(0),
            "carried" if status == 0 => self.carried.values_mut()[CARRIED_WIDTH] ^= 1,
            "key" if status == 0 => self.carried.values_mut()[CARRIED_WIDTH + 9] ^= 1,
            "gap" if status == 0 => self.carried.values_mut()[2 * CARRIED_WIDTH - 1] ^= 1,
            "refusal" if status != 0 => self.tallies.values_mut()[HIGH] ^= 1,
            _ => {}
        }
    }
}
