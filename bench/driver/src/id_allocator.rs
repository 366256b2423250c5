include!("../../../oracle/original/id_allocator.rs");
#[path = "../../../oracle/rust/driver/src/id_allocator/probe.rs"]
pub(crate) mod probe;
