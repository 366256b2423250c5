//! The driver: one call a line in, one answer a line out, on the original Rust. `oracle/README.md` has the calls.
//!
//!     oracle mapper                the object location mapper alone
//!     oracle heap                  the whole heap, with real files in a temporary directory
//!     oracle order THREADS ROUNDS  how many batches of 2,000 come out of list order
//!     oracle morning THREADS       the refill on standard input; prints where each object went

// The originals are included as they are, each into a module with one child, `probe`, since a child module reaches
// its parent's private items.
#[allow(dead_code)]
mod heap {
    include!("../../../original/heap.rs");
    pub(crate) mod probe;
}
#[allow(dead_code)]
mod id_allocator {
    include!("../../../original/id_allocator.rs");
    pub(crate) mod probe;
}
#[allow(dead_code)]
mod object_location_mapper {
    include!("../../../original/object_location_mapper.rs");
    pub(crate) mod probe;
}

mod dump;
mod heap_store;
mod leaves;
mod mapper_store;
mod order;
mod stand_ins;
mod words;

// The names that the originals expect at the root of their crate.
pub(crate) use heap::SlabAddress;
pub(crate) use id_allocator::{Allocator, DeferredFree};
pub(crate) use stand_ins::{CollectionId, Config, MetadataStore, ObjectId};

use std::io::{BufRead, Write};
use std::panic::{catch_unwind, AssertUnwindSafe};
use words::Words;

/// What both stores answer to. `None`: no such call here.
trait Store {
    fn restart(&mut self, rows: &[(u64, u64)], empty: bool) -> String;
    fn call(&mut self, name: &str, words: &mut Words) -> Option<String>;
}

fn main() {
    let arguments: Vec<String> = std::env::args().skip(1).collect();
    // `Heap::recover` runs the command `sync`; without a search path it finds none, warns and goes on.
    std::env::set_var("PATH", "");
    std::panic::set_hook(Box::new(|_| {}));
    let mode = arguments.first().map(String::as_str).unwrap_or("");
    let number = |at: usize| arguments.get(at).and_then(|word| word.parse().ok()).unwrap_or(1);
    match mode {
        "mapper" => answer_lines(mapper_store::MapperStore::new()),
        "heap" => answer_lines(heap_store::HeapStore::new()),
        "order" => order::print_order(number(1), number(2)),
        "morning" => order::print_morning(number(1)),
        _ => panic!("modes: mapper, heap, order, morning"),
    }
}

fn answer_lines(mut store: impl Store) {
    let mut leaves = leaves::Leaves::new();
    let mut input = std::io::stdin().lock();
    let mut output = std::io::BufWriter::new(std::io::stdout().lock());
    let mut poisoned = false;
    let mut line = String::new();
    while { line.clear(); input.read_line(&mut line).unwrap() } > 0 {
        let mut words = Words::of(&line);
        let name = words.next().to_string();
        let answer = catch_unwind(AssertUnwindSafe(|| answer(&mut store, &mut leaves, &mut poisoned, &name, &mut words)))
            .unwrap_or_else(|panic| {
                // A panic inside an allocator poisons its lock. Only a restart heals that.
                poisoned |= !leaves::is_leaf(&name);
                format!("panic {}", message(&panic))
            });
        writeln!(output, "{answer}").unwrap();
        if input.fill_buf().map_or(true, |rest| rest.is_empty()) || line.starts_with("flush") {
            output.flush().unwrap();
        }
    }
}

fn answer(store: &mut impl Store, leaves: &mut leaves::Leaves, poisoned: &mut bool, name: &str, words: &mut Words) -> String {
    if let Some(answer) = leaves.call(name, words) {
        return answer;
    }
    match name {
        "flush" => "ok".into(),
        "fresh" => {
            let answer = store.restart(&[], true);
            *poisoned = false;
            answer
        }
        "rebuild" => {
            let count = words.number();
            let rows: Vec<(u64, u64)> = (0..count).map(|_| (words.number(), words.number())).collect();
            let answer = store.restart(&rows, false);
            *poisoned = false;
            answer
        }
        _ if *poisoned => "poisoned".into(),
        _ => store.call(name, words).unwrap_or_else(|| format!("no call {name}")),
    }
}

fn message(panic: &Box<dyn std::any::Any + Send>) -> String {
    let text = panic.downcast_ref::<String>().map(String::as_str).or(panic.downcast_ref::<&str>().copied());
    text.unwrap_or("without words").replace('\n', " ")
}
