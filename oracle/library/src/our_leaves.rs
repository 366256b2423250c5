//! The library's calls that need no store, as the oracle's lines.
use crate::guarded::{Canary, Guarded};
use crate::ours::{ok, refused, unless_wrong};
use crate::tables::{Tables, USED};
use crate::words::{hex, unhex, Words};
use wentuhoro::raw;

const BROKEN: &str = "broken: a lent byte was written";

pub fn call(line: &str) -> Option<String> {
    let mut words = Words::of(line);
    let name = words.next();
    let answer = match name {
        "class" => class(words.number()),
        "crc" => check(&words.bytes()),
        "frame" => frame(words.number() as usize, &words.bytes()),
        "unframe" => unframe(words.number() as usize, words.bytes(), &unhex(words.next())),
        "cookie" => cookie(words.number()),
        "uncookie" => uncookie(words.number(), &words.bytes()),
        "pack" => pack(words.number() as usize, words.number() as usize),
        "unpack" => unpack(words.number()),
        "cutoff" => cutoff(words.number() as usize, words.number() as usize, words.ratio()),
        _ => return None,
    };
    Some(unless_wrong(name, answer))
}

/// The answer's words where the call kept to what it was lent.
fn told(status: u64, answer: &Guarded<u64>, show: impl FnOnce(&[u64]) -> String) -> String {
    match status {
        _ if !answer.canaries_live() => BROKEN.into(),
        0 => show(answer.values()),
        _ if !answer.is_unwritten() => BROKEN.into(),
        _ => refused(status),
    }
}

fn unchanged<T: Canary>(lent: &Guarded<T>, values: &[T]) -> bool {
    lent.canaries_live() && lent.values() == values
}

fn class(n: u64) -> String {
    let mut slab = Guarded::unwritten(1);
    match unsafe { raw::wentuhoro_class(n, slab.as_mut_ptr(), 1) } {
        // The Rust's word for it.
        2 if slab.is_unwritten() => "none".into(),
        status => told(status, &slab, |values| ok(values.iter().copied())),
    }
}

/// Twice: whole, and continued in the middle.
fn check(bytes: &[u8]) -> String {
    let whole = unsafe { raw::wentuhoro_crc32(bytes.as_ptr(), bytes.len()) };
    let (left, right) = bytes.split_at(bytes.len() / 3);
    let parts = [left, right].iter().fold(!0, |register, part| wentuhoro::crc32_update(register, part));
    if !parts != whole {
        return format!("in parts {}", !parts);
    }
    ok([u64::from(whole)])
}

fn frame(size: usize, object: &[u8]) -> String {
    let mut slot = Guarded::<u8>::unwritten(size);
    let lent = Guarded::of(object);
    let status = unsafe { raw::wentuhoro_frame_write(slot.as_mut_ptr(), size, lent.as_ptr(), lent.len()) };
    if !unchanged(&lent, object) || !slot.canaries_live() || (status != 0 && !slot.is_unwritten()) {
        return BROKEN.into();
    }
    if status != 0 {
        return refused(status);
    }
    let (body, tail) = slot.values().split_at(size - tail_bytes(size));
    let whole = object.len() <= body.len() && body.starts_with(object) && body[object.len()..].iter().all(|byte| *byte == 0);
    format!("ok {} {}", if whole { "whole" } else { "torn" }, hex(tail))
}

pub fn tail_bytes(size: usize) -> usize {
    match size {
        0..=255 => 5,
        256..=65_535 => 6,
        65_536..=4_294_967_295 => 8,
        _ => 12,
    }
}

/// The slot is these bytes, zeros, and the tail over its end.
fn unframe(size: usize, mut slot: Vec<u8>, tail: &[u8]) -> String {
    slot.resize(size, 0);
    slot[size - tail.len()..].copy_from_slice(tail);
    let lent = Guarded::of(&slot);
    let mut length = Guarded::unwritten(1);
    let status = unsafe { raw::wentuhoro_frame_read(lent.as_ptr(), size, length.as_mut_ptr(), 1) };
    if !unchanged(&lent, &slot) {
        return BROKEN.into();
    }
    told(status, &length, |values| ok(values.iter().copied()))
}

fn cookie(fanout: u64) -> String {
    let mut cookie = Guarded::<u8>::unwritten(64);
    let status = unsafe { raw::wentuhoro_cookie_write(fanout, cookie.as_mut_ptr(), cookie.len()) };
    match status {
        _ if !cookie.canaries_live() => BROKEN.into(),
        0 => format!("ok {}", hex(cookie.values())),
        _ => refused(status),
    }
}

/// Verified; and read, which has to agree.
fn uncookie(fanout: u64, cookie: &[u8]) -> String {
    let lent = Guarded::of(cookie);
    let verified = unsafe { raw::wentuhoro_cookie_verify(lent.as_ptr(), lent.len(), fanout) };
    let mut found = Guarded::unwritten(1);
    let read = unsafe { raw::wentuhoro_cookie_read(lent.as_ptr(), lent.len(), found.as_mut_ptr(), 1) };
    let agrees = match verified {
        0 => read == 0 && found.values()[0] == fanout,
        7 => read == 0 && found.values()[0] != fanout,
        other => read == other && found.is_unwritten(),
    };
    if !unchanged(&lent, cookie) || !found.canaries_live() || !agrees {
        return BROKEN.into();
    }
    if verified == 0 { "ok".into() } else { refused(verified) }
}

fn pack(slab: usize, slot: usize) -> String {
    let mut location = Guarded::unwritten(1);
    let status = unsafe { raw::wentuhoro_pack(65_536, slab, slot, location.as_mut_ptr(), 1) };
    told(status, &location, |values| ok(values.iter().copied()))
}

fn unpack(location: u64) -> String {
    let mut address = Guarded::unwritten(3);
    let status = unsafe { raw::wentuhoro_unpack(65_536, location, address.as_mut_ptr(), 3) };
    told(status, &address, |values| match *values {
        [0, 0, 0] => "none".into(),
        [1, slab, slot] => ok([slab, slot]),
        _ => "no answer".into(),
    })
}

/// Up to this tip a cutoff is read off a defrag list too, where a slab can have it: with nothing taken its tip is at most 1, and a tip of 0 lists
/// nothing.
const LISTED: usize = 120;

/// Asked for; and listed from, which has to agree.
fn cutoff(live: usize, tip: usize, ratio: f32) -> String {
    let mut cutoff = Guarded::unwritten(2);
    let status = unsafe { raw::wentuhoro_fragmentation_cutoff(live, tip, ratio, cutoff.as_mut_ptr(), cutoff.len()) };
    let said = told(status, &cutoff, |values| match *values {
        [0, 0] => "nothing".into(),
        [1, slot] => format!("from {slot}"),
        _ => "no answer".into(),
    });
    let has_list = tip <= LISTED && (live > 0 || tip == 1);
    match if has_list { listed_from(live, tip, ratio) } else { said.clone() } {
        listed if listed == said => said,
        listed => format!("{said}, but listed {listed}"),
    }
}

/// Where a slab of this tip, so many of its slots taken, is listed from: slot j is object j's for every j but 0, whatever the marks say, and
/// the first row tells. A slab with nothing taken has a tip of at most 1.
fn listed_from(live: usize, tip: usize, ratio: f32) -> String {
    let location = |slot: usize| (1 << 56) + slot as u64;
    let mut tables = Tables::new(tip.max(2), tip);
    tables.fresh().unwrap();
    for slot in 1..tip {
        tables.locations.values_mut()[slot] = location(slot);
        tables.owners.values_mut()[slot] = slot as u64;
    }
    if tip == 1 {
        tables.locations.values_mut()[1] = location(0);
        tables.owners.values_mut()[0] = 1;
    }
    if live > 0 {
        tables.slot_marks.values_mut()[..live - 1].fill(1);
        tables.slot_marks.values_mut()[tip - 1] = 1;
    }
    tables.tallies.values_mut()[USED + 1] = 1;
    match tables.defrag(ratio) {
        Err(status) => refused(status),
        Ok(rows) => rows.first().map_or("nothing".into(), |(_, from)| format!("from {}", from & 0xFFFF_FFFF)),
    }
}
