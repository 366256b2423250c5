//! The exported library beside the original Rust.
//!
//!     library mapper [IDS SLOTS]     the oracle's lines (oracle/README.md), answered by the library
//!     library heap [IDS SLOTS [T]]   the same with slots, in memory in place of files
//!     library morning                the refill on standard input; prints where each object went
//!     library compare [HISTORIES [SEED]]
//!                                    both sides in this process, call by call
//!
//! A refusal is told as `refused NUMBER INDEX`. ORACLE_WRONG=CALL changes each of the library's answers to that call before it is
//! compared; `reason_number` and `reason_smaller` change the number and the smaller slots of a reason, of which `reason` changes the line; `canary`,
//! `carried`, `key`, `gap` and `refusal` change its memory instead, `location` and `key_in_file` the last row of a snapshot that it wrote and that was
//! read back. The comparison then has to fail.

// The originals and the oracle's driver around them, as the oracle has them.
#[allow(dead_code)]
mod heap;
#[allow(dead_code)]
mod id_allocator;
#[allow(dead_code)]
mod object_location_mapper;
#[path = "../../rust/driver/src/dump.rs"]
mod dump;
#[allow(dead_code)]
#[path = "../../rust/driver/src/heap_store.rs"]
mod heap_store;
#[path = "../../rust/driver/src/leaves.rs"]
mod leaves;
#[path = "../../rust/driver/src/mapper_store.rs"]
mod mapper_store;
#[path = "../../rust/driver/src/stand_ins.rs"]
mod stand_ins;
#[allow(dead_code)]
#[path = "../../rust/driver/src/words.rs"]
mod words;

mod both;
mod calls;
mod chance;
mod cuts;
mod full;
mod guarded;
mod histories;
mod judge;
mod leaf_lines;
mod our_heap;
mod our_leaves;
mod ours;
mod progress;
mod reason_lines;
mod rows;
mod snapshots;
mod tables;
mod tiny;

pub(crate) use heap::SlabAddress;
pub(crate) use id_allocator::{Allocator, DeferredFree};
pub(crate) use stand_ins::{CollectionId, Config, MetadataStore, ObjectId};

use std::io::{BufRead, Write};
use words::Words;

/// What every store answers to, the Rust's and ours. `None`: no such call here.
trait Store {
    fn restart(&mut self, rows: &[(u64, u64)], empty: bool) -> String;
    fn call(&mut self, name: &str, words: &mut Words) -> Option<String>;
}

fn main() {
    let arguments: Vec<String> = std::env::args().skip(1).collect();
    // As in the oracle's driver: `Heap::recover` runs the command `sync`, and the Rust's panics are answers.
    std::env::set_var("PATH", "");
    std::panic::set_hook(Box::new(|_| {}));
    let mode = arguments.first().map(String::as_str).unwrap_or("");
    let number = |at: usize, or: u64| arguments.get(at).and_then(|word| word.parse().ok()).unwrap_or(or);
    let capacities = (number(1, 65_536) as usize, number(2, 65_536) as usize);
    match mode {
        "mapper" => answer_lines(ours::Ours::new(capacities.0, capacities.1)),
        "heap" => answer_lines(our_heap::OurHeap::new(capacities.0, capacities.1, number(3, 80))),
        "morning" => our_heap::print_morning(),
        "compare" => std::process::exit(both::compare(number(1, 100_000), number(2, 1))),
        _ => panic!("modes: mapper, heap, morning, compare"),
    }
}

fn answer_lines(mut store: impl Store + ours::Resizable) {
    let mut input = std::io::stdin().lock();
    let mut output = std::io::BufWriter::new(std::io::stdout().lock());
    let mut line = String::new();
    while { line.clear(); input.read_line(&mut line).unwrap() } > 0 {
        if let Some(rest) = line.strip_prefix("fresh ") {
            let mut words = Words::of(rest);
            store.resize(words.number() as usize, words.number() as usize);
        }
        let answer = our_leaves::call(&line).unwrap_or_else(|| answer(&mut store, &line));
        writeln!(output, "{answer}").unwrap();
        if input.fill_buf().map_or(true, |rest| rest.is_empty()) {
            output.flush().unwrap();
        }
    }
}

/// One line, one answer.
fn answer(store: &mut dyn Store, line: &str) -> String {
    let mut words = Words::of(line);
    match words.next() {
        "flush" => "ok".into(),
        "fresh" => store.restart(&[], true),
        "rebuild" => {
            let count = words.number();
            let rows: Vec<(u64, u64)> = (0..count).map(|_| (words.number(), words.number())).collect();
            store.restart(&rows, false)
        }
        name => store.call(name, &mut words).unwrap_or_else(|| format!("no call {name}")),
    }
}
