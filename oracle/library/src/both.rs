//! Both sides in one process: each call made on each, each answer compared.
use std::panic::{catch_unwind, AssertUnwindSafe};
use std::time::Instant;

use crate::calls::Call;
use crate::chance::Chance;
use crate::heap_store::HeapStore;
use crate::judge::{Judge, Rust};
use crate::mapper_store::MapperStore;
use crate::our_heap::OurHeap;
use crate::ours::Ours;
use crate::rows::{kept_told, Carried};
use crate::{answer, cuts, full, histories, leaf_lines, reason_lines, snapshots, tiny, Store};

#[derive(Default)]
pub struct Counts {
    pub compared: u64,
    pub refusals: u64,
    /// Calls that the Rust is known to answer otherwise: docs/DIFFERENCES.md.
    pub listed: u64,
    pub differences: u64,
}

const SHOWN: u64 = 3;

impl Counts {
    pub fn compare(&mut self, history: &[String], line: &str, answered: &str, expected: &str) -> bool {
        self.compared += 1;
        if answered == expected {
            return true;
        }
        self.differences += 1;
        if self.differences <= SHOWN {
            let cut = |text: &str| text.chars().take(400).collect::<String>();
            println!("  differs after:");
            history.iter().for_each(|line| println!("    {}", cut(line)));
            println!("  call:     {}\n  answered: {}\n  expected: {}", cut(line), cut(answered), cut(expected));
        }
        false
    }
}

/// The library in either form.
pub trait OurStore: Store {
    fn ours(&mut self) -> &mut Ours;
}

impl OurStore for Ours {
    fn ours(&mut self) -> &mut Ours {
        self
    }
}

impl OurStore for OurHeap {
    fn ours(&mut self) -> &mut Ours {
        &mut self.ours
    }
}

pub struct Both {
    pub rust: Box<dyn Rust>,
    pub ours: Box<dyn OurStore>,
    pub ids: u64,
    pub slots: u64,
    pub history: Vec<String>,
    /// Which rows of the next offer, batch or rebuild have a key that is too long.
    long: Vec<usize>,
}

impl Both {
    pub fn mapper(ids: u64, slots: u64) -> Both {
        let (rust, ours) = (Box::new(MapperStore::new()), Box::new(Ours::new(ids as usize, slots as usize)));
        Both { rust, ours, ids, slots, history: vec![Call::Fresh.line(ids, slots)], long: vec![] }
    }

    pub fn heap(ids: u64, slots: u64) -> Both {
        let (rust, ours) = (Box::new(HeapStore::new()), Box::new(OurHeap::new(ids as usize, slots as usize, 80)));
        Both { rust, ours, ids, slots, history: vec![Call::Fresh.line(ids, slots)], long: vec![] }
    }

    /// What the rows of the next offer, batch or rebuild carry. The Rust's have none of it.
    pub fn tell(&mut self, rows: &[Carried]) {
        let told: Vec<String> = rows.iter().map(Carried::told).collect();
        let line = format!("carried {} {}", rows.len(), told.join(" "));
        answer(&mut *self.ours, &line);
        self.history.push(line);
        self.long = (0..rows.len()).filter(|row| rows[*row].is_too_long()).collect();
    }

    pub fn judge(&self) -> Judge<'_> {
        Judge { rust: &*self.rust, ids: self.ids, slots: self.slots, long: &self.long }
    }

    /// The file of the Rust's rows, with what they were offered with; or where the one that was written is another.
    fn snapshot(&mut self) -> String {
        let live = self.judge().live();
        let ours = self.ours.ours();
        let row = |(id, location)| snapshots::Row { id, location, kept: ours.tables.rows[id as usize] };
        let rows: Vec<snapshots::Row> = live.into_iter().map(row).collect();
        snapshots::expected(&rows, &ours.written)
    }

    /// The Rust's answer to a line, be it a panic.
    fn rust_answers(&mut self, line: &str) -> String {
        let rust = &mut self.rust;
        catch_unwind(AssertUnwindSafe(|| answer(&mut **rust, line))).unwrap_or_else(|_| "a panic of the Rust".into())
    }

    /// What the Rust answers of each id by itself, with what its row was offered with; where document 01 refuses that, the number and zeros.
    fn page(&mut self, ids: &[u64]) -> String {
        let held = self.judge().held();
        let mut page = String::from("ok");
        for id in ids {
            if !self.judge().is_stored(&held, *id) {
                page += " 8 0 0 -";
                continue;
            }
            let location = self.rust_answers(&Call::Lookup(*id).line(self.ids, self.slots)).replacen("ok", "", 1);
            page += &format!(" 0{location} {}", kept_told(&self.ours.ours().tables.rows[*id as usize]));
        }
        page
    }

    /// The Rust's reason; of a number that is no id, which it cannot be asked of, that nothing is stored. Where it asserts in the object's slab, a listed
    /// difference, nothing of that is listed: so it is by the smallest ratio.
    fn reason(&mut self, counts: &mut Counts, id: u64, bits: u32) -> String {
        if id == 0 || id >= self.ids {
            return "ok 0 0 0 0 0 0 0".into();
        }
        let asserts = self.judge().asserts_for(id, f32::from_bits(bits));
        counts.listed += u64::from(asserts);
        self.rust_answers(&Call::Reason(id, if asserts { 1 } else { bits }).line(self.ids, self.slots))
    }

    /// Whether the Rust asserts in what it is to be asked, and document 01's answer cannot be read off it.
    fn asserts(&self, call: &Call) -> bool {
        match call {
            Call::Defrag(bits) => self.judge().asserts(f32::from_bits(*bits)),
            Call::Reason(id, bits) => self.judge().asserts(f32::from_bits(*bits)) && !self.judge().asserts_for(*id, f32::from_bits(*bits)),
            _ => false,
        }
    }

    /// The Rust's answer; of a cut, which is a listed difference, in the port's words; and of what it has not, what its state makes of it.
    fn rust_says(&mut self, counts: &mut Counts, call: &Call, line: &str) -> String {
        if matches!(call, Call::Snapshot) {
            return self.snapshot();
        }
        if let Call::Page(ids) = call {
            return self.page(ids);
        }
        if let Call::Reason(id, bits) = call {
            return self.reason(counts, *id, *bits);
        }
        let marks = self.rust.files().map(cuts::high_marks);
        let said = self.rust_answers(line);
        let (Some(heap), Some(marks)) = (self.rust.files(), marks) else {
            return said;
        };
        let ours = cuts::in_our_words(heap, call, &marks, said.clone());
        counts.listed += u64::from(ours != said);
        ours
    }

    /// Makes a call on both sides; where document 01 refuses it, on the library alone. Whether the answers agree.
    pub fn call(&mut self, counts: &mut Counts, call: Call) -> bool {
        if self.asserts(&call) {
            counts.listed += 1;
            return true;
        }
        let line = call.line(self.ids, self.slots);
        let refusal = self.judge().refusal(&call);
        let watched = self.ours.ours().tables.watched;
        self.ours.ours().tables.watched |= refusal.is_some();
        let library = answer(&mut *self.ours, &line);
        self.ours.ours().tables.watched = watched;
        let expected = match refusal {
            Some((number, index)) => {
                counts.refusals += 1;
                format!("refused {number} {index}")
            }
            None => self.rust_says(counts, &call, &line),
        };
        let agree = counts.compare(&self.history, &line, &library, &expected);
        self.history.push(line);
        self.long.clear();
        agree
    }
}

/// The whole comparison; 1 where anything differs.
pub fn compare(count: u64, seed: u64) -> i32 {
    let begun = Instant::now();
    let chance = &mut Chance::new(seed);
    let (mut compared, mut differences) = (0, 0);
    let small = count < 10_000;
    let mut part = |words: &str, work: &mut dyn FnMut(&mut Counts) -> String| {
        let mut counts = Counts::default();
        eprintln!("{:6.1} s  {words} ..", begun.elapsed().as_secs_f64());
        let found = work(&mut counts);
        println!(
            "{:6.1} s  {words}{found}: {} compared, {} of them refusals, {} listed differences met, {} unlisted",
            begun.elapsed().as_secs_f64(), counts.compared, counts.refusals, counts.listed, counts.differences
        );
        compared += counts.compared;
        differences += counts.differences;
    };
    let none = String::new;
    part("classes, checks, addresses", &mut |counts| { leaf_lines::numbers(counts, chance); none() });
    part("frames, whole and damaged", &mut |counts| { leaf_lines::frames(counts, chance, if small { 10 } else { 200 }); none() });
    part("cookies, whole and damaged", &mut |counts| { leaf_lines::cookies(counts, chance, if small { 100 } else { 5_000 }); none() });
    part("f32 cutoffs", &mut |counts| { leaf_lines::cutoffs(counts, chance, if small { 16 } else { 120 }); none() });
    part("reasons about the line", &mut |counts| { reason_lines::run(counts, chance, if small { 16 } else { 101 }); none() });
    part("truncations on files", &mut |counts| { leaf_lines::truncations(counts, chance, if small { 5 } else { 150 }); none() });
    part(&format!("{count} random histories of the mapper"), &mut |counts| { histories::mapper(counts, chance, count); none() });
    let on_files = (count / 50).max(20);
    part(&format!("{on_files} random histories of the whole heap"), &mut |counts| { histories::heap(counts, chance, on_files); none() });
    for (ids, slots, lengths) in tiny::SIZES {
        if !(small && ids * slots * lengths.len() as u64 > 4) {
            let words = format!("every history, {ids} ids, {slots} slots, {} slab(s)", lengths.len());
            part(&words, &mut |counts| format!(", {} states", tiny::closure(counts, *ids, *slots, lengths)));
        }
    }
    if !small {
        part("capacities of 65,536", &mut |counts| { full::run(counts, chance); none() });
    }
    match differences {
        0 => println!("{compared} answers compared: no unlisted difference"),
        _ => println!("{compared} answers compared: {differences} UNLISTED DIFFERENCES"),
    }
    i32::from(differences > 0)
}
