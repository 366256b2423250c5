//! The calls that need no store.

use std::io;
use std::num::NonZeroU64;

use crate::heap::probe;
use crate::id_allocator::probe::set_free_and_tip;
use crate::words::{hex, unhex, TemporaryDirectory, Words};
use crate::{Allocator, SlabAddress};

pub struct Leaves {
    directory: TemporaryDirectory,
    file: Option<std::fs::File>,
    allocator: Allocator,
}

pub fn is_leaf(name: &str) -> bool {
    ["class", "crc", "frame", "unframe", "cookie", "uncookie", "pack", "unpack", "cutoff", "frame_end"].contains(&name)
}

impl Leaves {
    pub fn new() -> Leaves {
        Leaves { directory: TemporaryDirectory::new(), file: None, allocator: Allocator::default() }
    }

    pub fn call(&mut self, name: &str, words: &mut Words) -> Option<String> {
        if !is_leaf(name) {
            return None;
        }
        Some(match name {
            "class" => match probe::class(words.number()) {
                u8::MAX => "none".into(),
                slab => format!("ok {slab}"),
            },
            "crc" => format!("ok {}", crc32fast::hash(&words.bytes())),
            "frame" => self.frame(words.number(), words.bytes()),
            "frame_end" => {
                let (size, length) = (words.number(), words.number());
                result(probe::frame_end(self.file(), size, length), |end| format!("ok {}", hex(&end)))
            }
            "unframe" => self.unframe(words.number(), words.bytes(), unhex(words.next())),
            "cookie" => format!("ok {}", hex(&probe::cookie(words.number()))),
            "uncookie" => result(probe::uncookie(words.number(), &words.bytes()), |()| "ok".into()),
            "pack" => {
                let slab = u8::try_from(words.number()).expect("a slab is one byte");
                format!("ok {}", NonZeroU64::from(SlabAddress::from_slab_slot(slab, words.number())))
            }
            "unpack" => match NonZeroU64::new(words.number()).map(SlabAddress::from) {
                None => "none".into(),
                Some(address) => format!("ok {} {}", address.slab(), address.slot()),
            },
            "cutoff" => self.cutoff(words.number(), words.number(), words.ratio()),
            _ => unreachable!(),
        })
    }

    /// `whole`: the slot is the object, zeros and the tail (length field and check). `torn`: it is not.
    fn frame(&mut self, size: u64, object: Vec<u8>) -> String {
        let tail = (tail_bytes(size)) as usize;
        let slot = match probe::frame(self.file(), size, object.clone()) {
            Ok(slot) => slot,
            Err(error) => return said(error),
        };
        let (body, tail) = slot.split_at(slot.len() - tail);
        let whole = object.len() <= body.len()
            && body[..object.len()] == object[..]
            && body[object.len()..].iter().all(|byte| *byte == 0);
        format!("ok {} {}", if whole { "whole" } else { "torn" }, hex(tail))
    }

    /// The slot is these bytes, zeros, and the tail over its end. The answer is the length of what was handed back,
    /// with `other` behind it if that is not the slot's own first bytes.
    fn unframe(&mut self, size: u64, bytes: Vec<u8>, tail: Vec<u8>) -> String {
        let mut slot = bytes;
        slot.resize(size as usize, 0);
        let end = slot.len() - tail.len();
        slot[end..].copy_from_slice(&tail);
        result(probe::unframe(self.file(), &slot), |object| {
            let same = slot[..object.len()] == object[..];
            format!("ok {}{}", object.len(), if same { "" } else { " other" })
        })
    }

    fn cutoff(&mut self, live: u64, tip: u64, ratio: f32) -> String {
        set_free_and_tip(&self.allocator, tip - live, tip);
        let allocator = &self.allocator;
        let answer = std::panic::catch_unwind(std::panic::AssertUnwindSafe(|| allocator.fragmentation_cutoff(ratio)));
        match answer {
            Ok(None) => "nothing".into(),
            Ok(Some((from, _))) => format!("from {from}"),
            Err(_) => {
                // The assert fired with the lock held.
                self.allocator = Allocator::default();
                "asserted".into()
            }
        }
    }

    fn file(&mut self) -> &std::fs::File {
        let path = self.directory.0.join("slot");
        self.file.get_or_insert_with(|| {
            std::fs::OpenOptions::new().create(true).truncate(true).read(true).write(true).open(path).unwrap()
        })
    }
}

/// Field and check, by the Rust's own reading in `Slab::read`.
fn tail_bytes(size: u64) -> u64 {
    match size {
        0..=255 => 5,
        256..=65_535 => 6,
        65_536..=4_294_967_295 => 8,
        _ => 12,
    }
}

fn result<T>(result: io::Result<T>, show: impl FnOnce(T) -> String) -> String {
    result.map_or_else(said, show)
}

pub fn said(error: io::Error) -> String {
    format!("error {:?} {}", error.kind(), error.to_string().replace('\n', " "))
}
