include!("../../../oracle/original/object_location_mapper.rs");
#[path = "../../../oracle/rust/driver/src/object_location_mapper/probe.rs"]
pub(crate) mod probe;
