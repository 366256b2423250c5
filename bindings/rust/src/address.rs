use std::num::NonZeroU64;

use crate::{raw, Refusal};

/// A slab and a slot, kept as the number that both are packed into: (slab + 1) × 2^56 + slot.
///
/// ```
/// use wentuhoro::SlabAddress;
///
/// let address = SlabAddress::from_slab_slot(77, 5)?;
/// assert_eq!(address.packed(), 5620492334958379013);
/// assert_eq!(SlabAddress::unpack(8, 5620492334958379013)?, Some(address));
/// assert_eq!(SlabAddress::unpack(8, 0)?, None);
/// assert_eq!(SlabAddress::unpack(5, 5620492334958379013).unwrap_err().kind.number(), 3);
/// # Ok::<(), wentuhoro::Refusal>(())
/// ```
#[derive(Clone, Copy, Debug, PartialEq, Eq, Hash, PartialOrd, Ord)]
#[repr(transparent)]
pub struct SlabAddress(NonZeroU64);

impl SlabAddress {
    /// There are this many slabs.
    pub const SLABS: usize = 78;
    /// The largest slot of any capacity.
    pub const LARGEST_SLOT: usize = 65_535;

    /// Refuses a slab past 77 or a slot past 65,535 with 3.
    pub fn from_slab_slot(slab: usize, slot: usize) -> Result<SlabAddress, Refusal> {
        let mut location = 0;
        Refusal::unless_granted(unsafe { raw::wentuhoro_pack(Self::LARGEST_SLOT + 1, slab, slot, &mut location, 1) })?;
        Ok(Self::of(location).expect("a packed location is not 0"))
    }

    /// The address of a packed location under a slot capacity; none for 0, which means no object.
    pub fn unpack(slots: usize, location: u64) -> Result<Option<SlabAddress>, Refusal> {
        let mut address = [0; 3];
        Refusal::unless_granted(unsafe { raw::wentuhoro_unpack(slots, location, address.as_mut_ptr(), address.len()) })?;
        Ok(Self::of(location))
    }

    /// A location that the library has answered.
    pub(crate) fn of(location: u64) -> Option<SlabAddress> {
        NonZeroU64::new(location).map(SlabAddress)
    }

    pub fn packed(self) -> u64 {
        self.0.get()
    }

    pub fn slab(self) -> usize {
        (self.packed() >> 56) as usize - 1
    }

    pub fn slot(self) -> usize {
        (self.packed() & ((1 << 56) - 1)) as usize
    }
}

impl From<SlabAddress> for NonZeroU64 {
    fn from(address: SlabAddress) -> NonZeroU64 {
        address.0
    }
}
