include!("../../original/id_allocator.rs");
#[path = "../../rust/driver/src/id_allocator/probe.rs"]
pub(crate) mod probe;
