//! Stand-in for the crate `inline-array`.
//!
//! Assumed: the heap carries an object's low key and never looks inside, except that it is one of the fields by which a
//! batch's updates are sorted. Every low key here is the empty one, so that field decides nothing.

#[derive(Clone, Debug, Default, PartialEq, Eq, PartialOrd, Ord)]
pub struct InlineArray;
