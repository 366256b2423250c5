//! The example `why`, and with it the crate's sentences, held to what the program in crates/why writes: its words, its files, its output.
#[path = "../examples/why.rs"]
#[allow(dead_code)]
mod why;

use std::ffi::OsString;
use std::fs;

use why::{say_all, Capacities};

const PROGRAM: &str = concat!(env!("CARGO_MANIFEST_DIR"), "/../../crates/why");

/// What is said among the program's files.
fn said(words: &[OsString], capacities: Capacities) -> String {
    std::env::set_current_dir(format!("{PROGRAM}/data")).unwrap();
    let mut out = vec![];
    say_all(words, capacities, &mut out).unwrap();
    String::from_utf8(out).unwrap()
}

#[test]
fn as_the_program_writes() {
    let read = |name| fs::read_to_string(format!("{PROGRAM}/{name}")).unwrap();
    let words: Vec<OsString> = read("args").lines().map(OsString::from).collect();
    // Where the program's capacities do not suffice, it names this example.
    let expected = read("stdout").replace("; the Rust crate's example why takes any store", "");
    let said = said(&words, Capacities { ids: 16_384, slots: 4_096 });
    for (at, (said, expected)) in said.lines().zip(expected.lines()).enumerate() {
        assert_eq!(said, expected, "line {}", at + 1);
    }
    assert_eq!(said, expected);
    assert!(["): moved, since ", "): stays, since its slot", ", which is full enough", ": no such stored object"].iter().all(|part| said.contains(part)));
}

#[test]
fn any_store_is_taken() {
    // Refused above, for their last rows: an id of 16,384, and a slot of 4,096.
    for (file, expected) in [
        ("large_id.snapshot", "object 16384 (slab "),
        ("large_slot.snapshot", ", slot 4096): "),
    ] {
        let words = [file, "ratio=0.75"].map(OsString::from);
        let said = said(&words, Capacities::LARGEST);
        assert!(said.lines().last().unwrap().contains(expected), "{said}");
    }
}
