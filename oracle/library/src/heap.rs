include!("../../original/heap.rs");
#[path = "../../rust/driver/src/heap/probe.rs"]
pub(crate) mod probe;
