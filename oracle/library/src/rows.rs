//! What a row carries, a collection and a key: as a call is lent it, and as the store keeps it.
use crate::words::{hex, unhex, Words};

pub const CARRIED_WIDTH: usize = 80;
pub const LONGEST_KEY: usize = 64;

/// As it is kept, in a table and after a lookup: the collection, the key's length in a byte, the key, zeros.
pub type Kept = [u8; CARRIED_WIDTH];

/// As it is lent: the collection, how long the key is said to be, and bytes that begin with the key.
#[derive(Clone, Copy, PartialEq, Eq)]
pub struct Carried {
    pub collection: u64,
    pub key_length: u64,
    pub key: [u8; LONGEST_KEY],
}

impl Carried {
    /// `bytes` begin with the key, and may be more than that or less.
    pub fn new(collection: u64, key_length: u64, bytes: &[u8]) -> Carried {
        let mut key = [0; LONGEST_KEY];
        key[..bytes.len()].copy_from_slice(bytes);
        Carried { collection, key_length, key }
    }

    /// One that hardly another number gives: every other with a key, of any length up to 64; of a Free, which is not looked at, any.
    pub fn some(number: u64, store: bool) -> Carried {
        let mut key = [0; LONGEST_KEY];
        key.chunks_mut(8).zip(1..).for_each(|(part, at)| part.copy_from_slice(&mixed(number ^ at << 50).to_le_bytes()));
        let collection = mixed(number);
        let key_length = if !store { mixed(collection) } else if collection % 2 == 0 { 0 } else { collection / 2 % 65 };
        Carried { collection, key_length, key }
    }

    pub fn is_too_long(&self) -> bool {
        self.key_length > LONGEST_KEY as u64
    }

    pub fn bytes(&self) -> [u8; CARRIED_WIDTH] {
        let mut bytes = [0; CARRIED_WIDTH];
        bytes[..8].copy_from_slice(&self.collection.to_le_bytes());
        bytes[8..16].copy_from_slice(&self.key_length.to_le_bytes());
        bytes[16..].copy_from_slice(&self.key);
        bytes
    }

    pub fn of_bytes(bytes: &[u8]) -> Carried {
        let word = |at: usize| u64::from_le_bytes(bytes[at..at + 8].try_into().unwrap());
        Carried::new(word(0), word(8), &bytes[16..])
    }

    /// Without a byte past the key, which is not too long.
    pub fn kept(&self) -> Kept {
        let mut kept = [0; CARRIED_WIDTH];
        let length = self.key_length as usize;
        kept[..8].copy_from_slice(&self.collection.to_le_bytes());
        kept[8] = length as u8;
        kept[9..9 + length].copy_from_slice(&self.key[..length]);
        kept
    }

    /// What is lent for a row to be kept so.
    pub fn of_kept(kept: &Kept) -> Carried {
        Carried::new(u64::from_le_bytes(kept[..8].try_into().unwrap()), u64::from(kept[8]), &kept[9..9 + usize::from(kept[8])])
    }

    /// `COLLECTION LENGTH DIGITS`, the digits without the zeros at the end.
    pub fn told(&self) -> String {
        format!("{} {} {}", self.collection, self.key_length, without_zeros(&self.key))
    }

    pub fn read(words: &mut Words) -> Carried {
        Carried::new(words.number(), words.number(), &unhex(words.next()))
    }
}

fn mixed(number: u64) -> u64 {
    let spread = (number ^ number >> 31).wrapping_mul(0x9E37_79B9_7F4A_7C15);
    spread ^ spread >> 29
}

fn without_zeros(bytes: &[u8]) -> String {
    hex(&bytes[..bytes.iter().rposition(|byte| *byte != 0).map_or(0, |last| last + 1)])
}

/// A kept row: its collection, and the bytes behind that, without the zeros at the end.
pub fn kept_told(kept: &Kept) -> String {
    format!("{} {}", u64::from_le_bytes(kept[..8].try_into().unwrap()), without_zeros(&kept[8..]))
}

/// Rows as the library is lent them.
pub fn lent(rows: &[Carried]) -> Vec<u8> {
    rows.iter().flat_map(Carried::bytes).collect()
}
