include!("../../../oracle/original/heap.rs");
#[path = "../../../oracle/rust/driver/src/heap/probe.rs"]
pub(crate) mod probe;
