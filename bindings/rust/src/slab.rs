use crate::{raw, Refusal};

/// The bytes of a slot of each slab, ascending: [`slab_sizes`] as a constant.
pub const SLAB_SIZES: [u64; 78] = [
    64, 80, 96, 112, 128, 160, 192, 224, 256, 320, 384, 448, 512, 640, 768, 896, 1024, 1280, 1536, 1792, 2048, 2560, 3072, 3584, 4096,
    5120, 6144, 7168, 8192, 10240, 12288, 14336, 16384, 20480, 24576, 28672, 32768, 40960, 49152, 57344, 65536, 98304, 131072, 163840,
    196608, 262144, 393216, 524288, 786432, 1048576, 1572864, 2097152, 3145728, 4194304, 6291456, 8388608, 12582912, 16777216, 25165824,
    33554432, 50331648, 67108864, 100663296, 134217728, 201326592, 268435456, 402653184, 536870912, 805306368, 1073741824, 1610612736,
    2147483648, 3221225472, 4294967296, 6442450944, 8589934592, 12884901888, 17179869184,
];

/// The library's own table of slab sizes, whose order and class rule are proved: an object's class is the first entry that it, its length field and
/// its check fit.
///
/// ```
/// assert_eq!(wentuhoro::slab_sizes(), wentuhoro::SLAB_SIZES);
/// ```
pub fn slab_sizes() -> [u64; 78] {
    let mut sizes = [0; 78];
    let status = unsafe { raw::wentuhoro_slab_sizes(sizes.as_mut_ptr(), sizes.len()) };
    assert_eq!(status, 0, "a list of 78 is granted");
    sizes
}

/// The slab for an object of so many bytes. Refuses more than 17,179,869,172 with 2.
///
/// ```
/// use wentuhoro::{slab_for_size, SLAB_SIZES};
///
/// assert_eq!(slab_for_size(59)?, 0);
/// assert_eq!(slab_for_size(60)?, 1);
/// assert_eq!(SLAB_SIZES[slab_for_size(65_529)?], 98_304);
/// # Ok::<(), wentuhoro::Refusal>(())
/// ```
pub fn slab_for_size(n: u64) -> Result<usize, Refusal> {
    let mut slab = 0;
    Refusal::unless_granted(unsafe { raw::wentuhoro_class(n, &mut slab, 1) })?;
    Ok(slab as usize)
}

/// An object in its slot: its bytes, zeros, its length, the check.
///
/// ```
/// use wentuhoro::Slab;
///
/// let mut slot = [255u8; 64];
/// Slab::write(&mut slot, &[1, 2, 3])?;
/// assert_eq!(Slab::read(&slot)?, [1, 2, 3]);
///
/// slot[7] ^= 1;
/// assert_eq!(Slab::read(&slot).unwrap_err().kind.number(), 4);
///
/// // The same, signed again: no write gives such a slot.
/// let check = wentuhoro::crc32(&slot[..60]) ^ 0xAF;
/// slot[60..].copy_from_slice(&check.to_le_bytes());
/// assert_eq!(Slab::read(&slot).unwrap_err().kind, wentuhoro::RefusalKind::GapNotZero);
/// # Ok::<(), wentuhoro::Refusal>(())
/// ```
pub struct Slab;

impl Slab {
    /// Refuses a slot that has none of the [`SLAB_SIZES`] with 1, an object longer than the slot takes with 5.
    pub fn write(slot: &mut [u8], object: &[u8]) -> Result<(), Refusal> {
        let status = unsafe { raw::wentuhoro_frame_write(slot.as_mut_ptr(), slot.len(), object.as_ptr(), object.len()) };
        Refusal::unless_granted(status)
    }

    /// The object: the slot's own first bytes, no copy. A slot is accepted exactly if it is what [`Slab::write`] gives for some object. Refuses a
    /// slot of another length with 1, another check with 4, a stored length beyond what the slot takes with 5, and a byte that is not zero
    /// between the object and its length with 18.
    pub fn read(slot: &[u8]) -> Result<&[u8], Refusal> {
        let mut length = 0;
        Refusal::unless_granted(unsafe { raw::wentuhoro_frame_read(slot.as_ptr(), slot.len(), &mut length, 1) })?;
        Ok(&slot[..length as usize])
    }
}

/// The CRC-32 of ISO 3309.
///
/// ```
/// assert_eq!(wentuhoro::crc32(b"123456789"), 0xCBF43926);
/// ```
pub fn crc32(bytes: &[u8]) -> u32 {
    unsafe { raw::wentuhoro_crc32(bytes.as_ptr(), bytes.len()) }
}

/// The register after more bytes, for a check over parts.
///
/// ```
/// use wentuhoro::crc32_update;
///
/// assert_eq!(!crc32_update(crc32_update(!0, b"1234"), b"56789"), 0xCBF43926);
/// ```
pub fn crc32_update(register: u32, bytes: &[u8]) -> u32 {
    unsafe { raw::wentuhoro_crc32_update(register, bytes.as_ptr(), bytes.len()) }
}

/// The first slot that may be moved out of a slab with `live` slots held or pending below its tip, where it is filled less than the ratio.
/// Refuses more live than tip, or a tip past 65,536, with 1, and a ratio that is not above 0 and at most 1 with 14.
///
/// ```
/// assert_eq!(wentuhoro::fragmentation_cutoff(3, 8, 0.75)?, Some(4));
/// assert_eq!(wentuhoro::fragmentation_cutoff(4, 8, 0.5)?, None);
/// # Ok::<(), wentuhoro::Refusal>(())
/// ```
pub fn fragmentation_cutoff(live: usize, tip: usize, target_fill_ratio: f32) -> Result<Option<usize>, Refusal> {
    let mut cutoff = [0; 2];
    Refusal::unless_granted(unsafe {
        raw::wentuhoro_fragmentation_cutoff(live, tip, target_fill_ratio, cutoff.as_mut_ptr(), cutoff.len())
    })?;
    let [is_below, slot] = cutoff;
    Ok((is_below == 1).then_some(slot as usize))
}

#[cfg(test)]
mod tests {
    use super::*;

    /// The constant is the library's table, entry by entry; a list of another length is refused with 1 and left as it was.
    #[test]
    fn sizes_are_the_librarys() {
        for (slab, size) in slab_sizes().into_iter().enumerate() {
            assert_eq!(SLAB_SIZES[slab], size);
        }
        for length in [0, 77, 79] {
            let mut sizes = vec![5; length];
            assert_eq!(unsafe { raw::wentuhoro_slab_sizes(sizes.as_mut_ptr(), length) }, 1);
            assert!(sizes.iter().all(|size| *size == 5));
        }
    }

    /// The longest object of each slab's slot is of that class, one byte more is not.
    #[test]
    fn classes_follow_the_sizes() {
        for (slab, size) in SLAB_SIZES.into_iter().enumerate() {
            let field = match size {
                0..=255 => 1,
                256..=65_535 => 2,
                65_536..=4_294_967_295 => 4,
                _ => 8,
            };
            let room = size - field - 4;
            assert_eq!(slab_for_size(room), Ok(slab));
            assert_eq!(slab_for_size(room + 1).ok(), (slab < 77).then_some(slab + 1));
        }
    }
}
