//! Ours and the original, timed in one run. The originals are included unchanged, as the oracle includes them.
//!
//!     bench [ROUNDS [PICTURE]]    tables on standard output, the ratios as an SVG picture
#[allow(dead_code, unused_imports)]
mod heap;
#[allow(dead_code)]
mod id_allocator;
#[allow(dead_code)]
mod object_location_mapper;
#[allow(dead_code)]
#[path = "../../../oracle/rust/driver/src/stand_ins.rs"]
mod stand_ins;

mod leaves;
mod original;
mod ours;
mod picture;
mod snapshots;
mod store;
mod timing;

#[allow(unused_imports)]
pub(crate) use heap::SlabAddress;
#[allow(unused_imports)]
pub(crate) use id_allocator::{Allocator, DeferredFree};
#[allow(unused_imports)]
pub(crate) use stand_ins::{CollectionId, Config, MetadataStore, ObjectId};

fn main() {
    let arguments: Vec<String> = std::env::args().skip(1).collect();
    let rounds = arguments.first().and_then(|word| word.parse().ok()).unwrap_or(41);
    let mut picture = picture::Picture::default();
    store::run(rounds, &mut picture);
    snapshots::run(rounds, &mut picture);
    leaves::run(rounds, &mut picture);
    if let Some(path) = arguments.get(1) {
        std::fs::write(path, picture.svg()).expect("the picture is written");
    }
}
