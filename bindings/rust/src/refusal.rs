use std::fmt;

/// Why a call was refused, and which update, row, slab or block it speaks of. A refused call has changed nothing.
///
/// ```
/// use wentuhoro::{RefusalKind, Store, Update};
///
/// let mut store = Store::new(3, 8)?;
/// let id = store.allocate_object_id()?;
/// let refusal = store.offer(&[Update::store(id, 3), Update::free(id)]).unwrap_err();
/// assert_eq!((refusal.kind, refusal.index), (RefusalKind::RepeatedId, 1));
/// assert_eq!(refusal.kind.number(), 9);
/// # Ok::<(), wentuhoro::Refusal>(())
/// ```
#[derive(Clone, Copy, Debug, PartialEq, Eq, Hash)]
pub struct Refusal {
    pub kind: RefusalKind,
    /// From 0: the update's where the refusal is given per update, the row's where per row, the slab's for a batch that finds too few free
    /// slots, the block's where a snapshot is read, and 0 elsewhere.
    pub index: usize,
}

// The kinds by name and number, each said once.
macro_rules! kinds {
    ($($(#[$meaning:meta])* $kind:ident = $number:literal,)*) => {
        /// The table of refusals. Later versions name more of them.
        #[derive(Clone, Copy, Debug, PartialEq, Eq, Hash, PartialOrd, Ord)]
        #[non_exhaustive]
        pub enum RefusalKind {
            $($(#[$meaning])* $kind,)*
            /// A number that this version has no name for: the linked library is a newer one.
            Unnamed(u8),
        }

        impl RefusalKind {
            fn numbered(number: u8) -> RefusalKind {
                match number {
                    $($number => RefusalKind::$kind,)*
                    _ => RefusalKind::Unnamed(number),
                }
            }

            /// The number of the table.
            pub fn number(self) -> u8 {
                match self {
                    $(RefusalKind::$kind => $number,)*
                    RefusalKind::Unnamed(number) => number,
                }
            }
        }
    };
}

kinds! {
    /// A lent slice or a capacity has a wrong length or value.
    WrongShape = 1,
    /// An object beyond the largest class.
    TooLarge = 2,
    /// A slab, slot or packed location out of range.
    OutOfRange = 3,
    /// The check differs.
    CheckDiffers = 4,
    /// A stored length, or an object to be written, longer than its slot takes.
    TooLong = 5,
    /// A version of a cookie that is not 1, or of a snapshot's block that is neither 1 nor 2.
    UnknownVersion = 6,
    /// The fanout differs.
    FanoutDiffers = 7,
    /// Id 0, at or past capacity, not held, or (lookup) without location.
    NoSuchId = 8,
    /// The id of an earlier update of the batch, or of an earlier rebuild row.
    RepeatedId = 9,
    /// No free number.
    NoneFree = 10,
    /// A batch is open.
    BatchOpen = 11,
    /// None is open.
    NoBatch = 12,
    /// The tables contradict each other. No call of [`Store`](crate::Store) leaves them so.
    TablesDisagree = 13,
    /// A fill ratio or a target t out of range.
    RatioOutOfRange = 14,
    /// Over 256 updates, or ids of a page.
    TooMany = 15,
    /// A rebuild row has an earlier row's location.
    RepeatedLocation = 16,
    /// A cut reported where the test says keep.
    NothingToCut = 17,
    /// Bytes between object and frame are not zero.
    GapNotZero = 18,
    /// A snapshot's block has a wrong number, count, padding, key or row order, or another version than the block before.
    WrongBlock = 19,
    /// A key of over 64 bytes.
    KeyTooLong = 21,
}

impl Refusal {
    /// What a call's status says: 0 grants; else the number plus 256 times the index.
    pub(crate) fn unless_granted(status: u64) -> Result<(), Refusal> {
        if status == 0 {
            return Ok(());
        }
        Err(Refusal { kind: RefusalKind::numbered((status % 256) as u8), index: (status / 256) as usize })
    }
}

impl fmt::Display for Refusal {
    fn fmt(&self, f: &mut fmt::Formatter<'_>) -> fmt::Result {
        match self.kind {
            RefusalKind::Unnamed(number) => write!(f, "refused with {number}, index {}", self.index),
            kind => write!(f, "refused with {} ({kind:?}), index {}", kind.number(), self.index),
        }
    }
}

impl std::error::Error for Refusal {}

#[cfg(test)]
mod tests {
    use super::*;

    #[test]
    fn numbers_are_the_documents() {
        use RefusalKind::*;
        let kinds = [
            WrongShape, TooLarge, OutOfRange, CheckDiffers, TooLong, UnknownVersion, FanoutDiffers, NoSuchId, RepeatedId, NoneFree,
            BatchOpen, NoBatch, TablesDisagree, RatioOutOfRange, TooMany, RepeatedLocation, NothingToCut, GapNotZero, WrongBlock,
            KeyTooLong,
        ];
        // 20 is no number of these calls.
        assert!(kinds.into_iter().map(RefusalKind::number).eq((1..=19).chain([21])));
        assert_eq!(Refusal::unless_granted(0), Ok(()));
        assert_eq!(Refusal::unless_granted(2 * 256 + 9), Err(Refusal { kind: RefusalKind::RepeatedId, index: 2 }));
    }

    /// Whatever number a library answers, it is shown; those from 1 to 19, and 21, have a name.
    #[test]
    fn every_number_is_shown() {
        for number in 0..=255u8 {
            let refusal = Refusal::unless_granted(7 * 256 + u64::from(number)).unwrap_err();
            assert_eq!((refusal.kind.number(), refusal.index), (number, 7));
            assert_eq!(matches!(refusal.kind, RefusalKind::Unnamed(_)), !matches!(number, 1..=19 | 21));
            let shown = refusal.to_string();
            assert!(shown.starts_with(&format!("refused with {number}")) && shown.ends_with(", index 7"), "{shown}");
        }
    }
}
