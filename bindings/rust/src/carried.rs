/// What an object's row carries beside its location: its collection, and its low key. The store keeps them, and placement never looks at them. Later
/// versions carry more.
///
/// The key is borrowed: of the caller where a row is stored, of the store's own table where one is found, of the [`Page`](crate::Page) where a page's are,
/// of the snapshot's bytes where one is read. It has up to [`MOST_KEY`](Self::MOST_KEY) bytes; a longer one can be said, and is refused with 21 by what
/// would store it.
///
/// ```
/// use wentuhoro::{Carried, Store, Update};
///
/// let mut store = Store::new(9, 8)?;
/// let id = store.allocate_object_id()?;
/// store.offer(&[Update::store(id, 3).carrying(Carried::of_collection(7).with_key(b"icons/lamp"))])?;
/// store.commit()?;
/// let carried = store.find(id)?.carried;
/// assert_eq!((carried.collection, carried.key), (7, &b"icons/lamp"[..]));
/// # Ok::<(), wentuhoro::Refusal>(())
/// ```
#[derive(Clone, Copy, Debug, Default, PartialEq, Eq, Hash)]
#[non_exhaustive]
pub struct Carried<'a> {
    pub collection: u64,
    pub key: &'a [u8],
}

impl<'a> Carried<'a> {
    /// The most bytes of a key.
    ///
    /// ```
    /// use wentuhoro::{Carried, Store, Update};
    ///
    /// let mut store = Store::new(9, 8)?;
    /// let id = store.allocate_object_id()?;
    /// let key = [7; Carried::MOST_KEY + 1];
    /// let long = Update::store(id, 3).carrying(Carried::default().with_key(&key));
    /// assert_eq!(store.offer(&[long]).unwrap_err().kind.number(), 21);
    /// let longest = Update::store(id, 3).carrying(Carried::default().with_key(&key[..Carried::MOST_KEY]));
    /// assert!(store.offer(&[longest]).is_ok());
    /// # Ok::<(), wentuhoro::Refusal>(())
    /// ```
    pub const MOST_KEY: usize = 64;

    /// The bytes that a row carries, as it is brought and as it is kept.
    pub(crate) const WIDTH: usize = 80;

    /// An object of this collection, with an empty key.
    ///
    /// ```
    /// use wentuhoro::Carried;
    ///
    /// assert_eq!(Carried::of_collection(7).collection, 7);
    /// assert_eq!(Carried::of_collection(0), Carried::default());
    /// ```
    pub const fn of_collection(collection: u64) -> Carried<'a> {
        Carried { collection, key: &[] }
    }

    /// The same, with this key.
    ///
    /// ```
    /// use wentuhoro::Carried;
    ///
    /// let carried = Carried::of_collection(7).with_key(b"icons/lamp");
    /// assert_eq!((carried.collection, carried.key), (7, &b"icons/lamp"[..]));
    /// assert_eq!(carried.with_key(b""), Carried::of_collection(7));
    /// ```
    pub const fn with_key(self, key: &[u8]) -> Carried<'_> {
        Carried { collection: self.collection, key }
    }

    /// Rows as an offer and a rebuild are lent them, one after the other: the collection, the key's length, and 64 bytes that start with the key.
    /// A key that is too long keeps its length, by which the library refuses it.
    pub(crate) fn brought<'k>(rows: impl ExactSizeIterator<Item = Carried<'k>>) -> Vec<u8> {
        let mut bytes = vec![0; rows.len() * Self::WIDTH];
        for (row, Carried { collection, key }) in bytes.chunks_exact_mut(Self::WIDTH).zip(rows) {
            let length = key.len().min(Self::MOST_KEY);
            row[..8].copy_from_slice(&collection.to_le_bytes());
            row[8..16].copy_from_slice(&(key.len() as u64).to_le_bytes());
            row[16..16 + length].copy_from_slice(&key[..length]);
        }
        bytes
    }

    /// Of a row as the store keeps it: the collection, the key's length in one byte, the key, and zeros.
    pub(crate) fn kept(row: &'a [u8]) -> Carried<'a> {
        Carried { collection: word(row), key: &row[9..9 + row[8] as usize] }
    }
}

/// The number that a row starts with.
pub(crate) fn word(bytes: &[u8]) -> u64 {
    u64::from_le_bytes(bytes[..8].try_into().expect("eight bytes"))
}
