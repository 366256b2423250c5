//! The words of one line.

use crate::heap::Update;
use crate::{CollectionId, ObjectId};

pub struct Words<'a> {
    rest: std::str::SplitAsciiWhitespace<'a>,
}

impl<'a> Words<'a> {
    pub fn of(line: &'a str) -> Words<'a> {
        Words { rest: line.split_ascii_whitespace() }
    }

    pub fn next(&mut self) -> &'a str {
        self.rest.next().expect("a word is missing")
    }

    pub fn number(&mut self) -> u64 {
        self.next().parse().expect("a word is no number")
    }

    /// A ratio, given by its bits.
    pub fn ratio(&mut self) -> f32 {
        f32::from_bits(self.number() as u32)
    }

    /// `hex COUNT DIGITS`, digits `-` where the count is 0; or `ramp COUNT SEED STEP`: byte i is SEED + i × STEP modulo 256.
    pub fn bytes(&mut self) -> Vec<u8> {
        let form = self.next();
        let count = self.number();
        match form {
            "hex" => unhex(self.next()),
            "ramp" => ramp(count, self.number(), self.number()),
            _ => panic!("bytes are hex or ramp"),
        }
    }

    /// `COUNT`, then for each `s ID LENGTH SEED` (a Store of LENGTH bytes, a ramp of step 7) or `f ID 0 0` (a Free).
    pub fn updates(&mut self) -> Vec<Asked> {
        let count = self.number();
        (0..count)
            .map(|_| Asked {
                store: self.next() == "s",
                object_id: ObjectId::new(self.number()).expect("an update of id 0"),
                length: self.number(),
                seed: self.number(),
            })
            .collect()
    }
}

pub struct Asked {
    pub store: bool,
    pub object_id: ObjectId,
    pub length: u64,
    pub seed: u64,
}

impl Asked {
    pub fn update(&self) -> Update {
        let (object_id, collection_id) = (self.object_id, CollectionId(0));
        if self.store {
            let data = ramp(self.length, self.seed, 7);
            Update::Store { object_id, collection_id, low_key: Default::default(), data }
        } else {
            Update::Free { object_id, collection_id }
        }
    }
}

fn ramp(count: u64, seed: u64, step: u64) -> Vec<u8> {
    (0..count).map(|i| seed.wrapping_add(i.wrapping_mul(step)) as u8).collect()
}

pub fn unhex(digits: &str) -> Vec<u8> {
    if digits == "-" {
        return vec![];
    }
    (0..digits.len() / 2).map(|i| u8::from_str_radix(&digits[2 * i..2 * i + 2], 16).expect("no hex digit")).collect()
}

pub fn hex(bytes: &[u8]) -> String {
    if bytes.is_empty() {
        return "-".into();
    }
    bytes.iter().map(|byte| format!("{byte:02x}")).collect()
}

/// A temporary directory, in memory where the machine has such a place, gone when dropped.
pub struct TemporaryDirectory(pub std::path::PathBuf);

impl TemporaryDirectory {
    pub fn new() -> TemporaryDirectory {
        let memory = std::path::Path::new("/dev/shm");
        let above = if memory.is_dir() { memory.to_path_buf() } else { std::env::temp_dir() };
        static MADE: std::sync::atomic::AtomicU64 = std::sync::atomic::AtomicU64::new(0);
        let count = MADE.fetch_add(1, std::sync::atomic::Ordering::SeqCst);
        let path = above.join(format!("oracle-{}-{count}", std::process::id()));
        std::fs::create_dir_all(&path).unwrap();
        TemporaryDirectory(path)
    }
}

impl Drop for TemporaryDirectory {
    fn drop(&mut self) {
        let _ = std::fs::remove_dir_all(&self.0);
    }
}
