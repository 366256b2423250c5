//! Wentuhoro: a proved store. Placement is a function of the calls alone, so that a machine shows the same face every morning.
//!
//! The work is done by `libexports.a`, every function of which is proved to meet its contract; this crate lends it its tables and gives
//! its answers Rust's types. A refusal has the number that document 01 or 02 gives it and changes nothing.
//!
//! ```
//! use wentuhoro::{Carried, Store, Update};
//!
//! // At most 8 objects, at most 8 slots in each slab.
//! let mut store = Store::new(9, 8)?;
//! let ids: Vec<u64> = (0..8).map(|_| store.allocate_object_id()).collect::<Result<_, _>>()?;
//!
//! // Slots are taken in list order. The caller writes them, then commits; or abandons, and the batch has left no trace. A row may carry a
//! // collection and a key of up to 64 bytes, at which placement does not look.
//! let icon = Carried::of_collection(7).with_key(b"icons/lamp");
//! let batch: Vec<Update> = ids.iter().map(|&id| Update::store(id, 3).carrying(icon)).collect();
//! let placed = store.offer(&batch)?;
//! store.commit()?;
//! let found = store.find(6)?;
//! assert_eq!((found.location, found.carried.key), (placed[5].unwrap(), &b"icons/lamp"[..]));
//!
//! // A page asks for all that it shows at once. An unknown id spoils no other row.
//! let page = store.get_locations_for_objects(&[6, 9, 2])?;
//! let slots: Vec<Option<usize>> = page.iter().map(|found| Some(found.ok()?.location.slot())).collect();
//! assert_eq!(slots, [Some(5), None, Some(1)]);
//!
//! // What is freed is pending until a release, so that a reader's slot is not overwritten under it.
//! store.offer(&[1, 2, 3, 5, 7].map(Update::free))?;
//! store.commit()?;
//! store.release()?;
//!
//! let moved: Vec<(u64, usize, usize)> =
//!     store.objects_to_defrag(0.75)?.iter().map(|(id, at)| (*id, at.slab(), at.slot())).collect();
//! assert_eq!(moved, [(6, 0, 5), (8, 0, 7)]);
//! // And why: object 4 stays, since slot 3 is before the line, and object 8 is moved. A reason is shown as a sentence.
//! let lines = [4, 8].map(|id| store.reason_for_object(id, 0.75).map(|reason| (reason.is_listed(), reason.line())));
//! assert_eq!(lines, [Ok((false, Some(4))), Ok((true, Some(4)))]);
//!
//! // The live rows as bytes. This store is at rest: no batch is open, nothing is pending and every id is stored. So a store of the same capacities
//! // that is opened from them on another machine places as this one does.
//! let bytes = store.snapshot()?;
//! let mut laptop = Store::from_snapshot(9, 8, &bytes)?;
//! assert_eq!(laptop.allocate_object_id()?, store.allocate_object_id()?);
//! # Ok::<(), wentuhoro::Refusal>(())
//! ```
//!
//! Beside the store: [`Page`] for its answers to many ids at once, [`Reason`] for why an object is moved or stays, [`snapshot`] for its live rows as
//! bytes, [`slab_for_size`] and [`SLAB_SIZES`], [`Slab`] for an object in its slot, [`crc32`], [`PersistentSettings`] for the settings cookie,
//! [`SlabAddress`] for a slab and a slot, [`fragmentation_cutoff`]. [`raw`] has the exported calls as they are.
mod address;
mod carried;
mod page;
pub mod raw;
mod reason;
mod refusal;
mod settings;
mod slab;
pub mod snapshot;
mod store;

pub use address::SlabAddress;
pub use carried::Carried;
pub use page::{Page, PageRows};
pub use reason::{Reason, ReasonKind, Standing};
pub use refusal::{Refusal, RefusalKind};
pub use settings::PersistentSettings;
pub use slab::{crc32, crc32_update, fragmentation_cutoff, slab_for_size, slab_sizes, Slab, SLAB_SIZES};
pub use store::{AllocatorStats, Cut, Found, Row, Store, Update};
