use std::fmt;
use std::iter::FusedIterator;
use std::ops::Range;

use crate::{Carried, Found, Refusal, SlabAddress};

/// What a store answers of many ids at once: a row for each, in the order asked, which is what [`Store::find`](crate::Store::find) answers of that id.
/// [`Store::get_locations_for_objects`](crate::Store::get_locations_for_objects) makes one, and
/// [`Store::get_locations_into`](crate::Store::get_locations_into) fills one again.
///
/// It has its own copy of the rows, so that it stands when the store changes; a key that it shows is borrowed from it.
///
/// ```
/// use wentuhoro::{Carried, Page, Refusal, Row, SlabAddress, Store};
///
/// let row = Row::new(5, SlabAddress::from_slab_slot(3, 1)?).carrying(Carried::of_collection(7).with_key(b"lamp"));
/// let mut store = Store::new(9, 8)?;
/// store.rebuild(&[row])?;
/// let page: Page = store.get_locations_for_objects(&[5, 6, 5])?;
/// store.fresh();
///
/// // Id 6 is unknown, which spoils no other row.
/// let keys: Vec<Result<&[u8], Refusal>> = page.iter().map(|found| Ok(found?.carried.key)).collect();
/// assert_eq!((keys[0], keys[2]), (Ok(&b"lamp"[..]), Ok(&b"lamp"[..])));
/// assert_eq!(keys[1].unwrap_err().kind.number(), 8);
/// # Ok::<(), Refusal>(())
/// ```
#[derive(Clone, Default, PartialEq, Eq)]
pub struct Page {
    /// Of each row: 0 where it is granted, else the refusal's.
    pub(crate) numbers: Vec<u8>,
    /// Packed; 0 where it is refused.
    pub(crate) locations: Vec<u64>,
    /// What each row carries, as the store keeps it; zeros where it is refused.
    pub(crate) rows: Vec<u8>,
}

impl Page {
    /// The most ids of a page.
    ///
    /// ```
    /// use wentuhoro::{Page, Store};
    ///
    /// let store = Store::new(9, 8)?;
    /// let ids = vec![1; 1_000];
    /// assert_eq!(store.get_locations_for_objects(&ids).unwrap_err().kind.number(), 15);
    /// let mut page = Page::new();
    /// for ids in ids.chunks(Page::MOST_IDS) {
    ///     store.get_locations_into(ids, &mut page)?;
    ///     assert_eq!(page.len(), ids.len());
    /// }
    /// # Ok::<(), wentuhoro::Refusal>(())
    /// ```
    pub const MOST_IDS: usize = 256;

    /// No rows; they are [asked for](crate::Store::get_locations_into) later.
    ///
    /// ```
    /// use wentuhoro::Page;
    ///
    /// assert!(Page::new().is_empty());
    /// assert_eq!(Page::new(), Page::default());
    /// ```
    pub const fn new() -> Page {
        Page { numbers: Vec::new(), locations: Vec::new(), rows: Vec::new() }
    }

    /// How many ids were asked for: refused rows count.
    ///
    /// ```
    /// let store = wentuhoro::Store::new(9, 8)?;
    /// assert_eq!(store.get_locations_for_objects(&[1, 1, 5])?.len(), 3);
    /// # Ok::<(), wentuhoro::Refusal>(())
    /// ```
    pub fn len(&self) -> usize {
        self.numbers.len()
    }

    /// Whether none were asked for.
    ///
    /// ```
    /// let store = wentuhoro::Store::new(9, 8)?;
    /// assert!(store.get_locations_for_objects(&[])?.is_empty());
    /// # Ok::<(), wentuhoro::Refusal>(())
    /// ```
    pub fn is_empty(&self) -> bool {
        self.numbers.is_empty()
    }

    /// The answer to the id that was asked for in this place, as [`Store::find`](crate::Store::find) gives it: where its object lies and what its row
    /// carries, or a refusal of its own. `None` past the last.
    ///
    /// ```
    /// use wentuhoro::{RefusalKind, Row, SlabAddress, Store};
    ///
    /// let location = SlabAddress::from_slab_slot(3, 1)?;
    /// let mut store = Store::new(9, 8)?;
    /// store.rebuild(&[Row::new(5, location)])?;
    /// let page = store.get_locations_for_objects(&[5, 6])?;
    /// assert_eq!(page.get(0).unwrap()?.location, location);
    /// assert_eq!(page.get(1).unwrap().unwrap_err().kind, RefusalKind::NoSuchId);
    /// assert_eq!(page.get(2), None);
    /// # Ok::<(), wentuhoro::Refusal>(())
    /// ```
    pub fn get(&self, at: usize) -> Option<Result<Found<'_>, Refusal>> {
        let number = *self.numbers.get(at)?;
        Some(Refusal::unless_granted(number.into()).map(|()| self.found(at)))
    }

    /// Of a row that is granted.
    fn found(&self, at: usize) -> Found<'_> {
        let location = SlabAddress::of(self.locations[at]).expect("a granted lookup has a location");
        Found { location, carried: Carried::kept(&self.rows[at * Carried::WIDTH..][..Carried::WIDTH]) }
    }

    /// The answers in the order asked.
    ///
    /// ```
    /// use wentuhoro::{Row, SlabAddress, Store};
    ///
    /// let at = |id, slot| Ok(Row::new(id, SlabAddress::from_slab_slot(3, slot)?));
    /// let mut store = Store::new(9, 8)?;
    /// store.rebuild(&[at(2, 7)?, at(5, 1)?])?;
    /// let ids = [5, 6, 2, 5];
    /// let page = store.get_locations_for_objects(&ids)?;
    /// let slots: Vec<Option<usize>> = page.iter().map(|found| Some(found.ok()?.location.slot())).collect();
    /// assert_eq!(slots, [Some(1), None, Some(7), Some(1)]);
    ///
    /// for (id, found) in ids.iter().zip(&page) {
    ///     assert_eq!(found, store.find(*id));
    /// }
    /// # Ok::<(), wentuhoro::Refusal>(())
    /// ```
    pub fn iter(&self) -> PageRows<'_> {
        PageRows { page: self, left: 0..self.len() }
    }

    /// So many rows; those that stay keep what they hold.
    pub(crate) fn resize(&mut self, count: usize) {
        self.numbers.resize(count, 0);
        self.locations.resize(count, 0);
        self.rows.resize(count * Carried::WIDTH, 0);
    }
}

impl fmt::Debug for Page {
    fn fmt(&self, f: &mut fmt::Formatter<'_>) -> fmt::Result {
        f.debug_list().entries(self).finish()
    }
}

impl<'a> IntoIterator for &'a Page {
    type Item = Result<Found<'a>, Refusal>;
    type IntoIter = PageRows<'a>;

    fn into_iter(self) -> PageRows<'a> {
        self.iter()
    }
}

/// The rows of a [`Page`], in the order asked.
///
/// ```
/// let store = wentuhoro::Store::new(9, 8)?;
/// let page = store.get_locations_for_objects(&[5, 6, 7])?;
/// let mut rows: wentuhoro::PageRows = page.iter();
/// assert_eq!((rows.next(), rows.len()), (Some(store.find(5)), 2));
/// # Ok::<(), wentuhoro::Refusal>(())
/// ```
#[derive(Clone, Debug)]
pub struct PageRows<'a> {
    page: &'a Page,
    left: Range<usize>,
}

impl<'a> Iterator for PageRows<'a> {
    type Item = Result<Found<'a>, Refusal>;

    fn next(&mut self) -> Option<Result<Found<'a>, Refusal>> {
        self.page.get(self.left.next()?)
    }

    fn size_hint(&self) -> (usize, Option<usize>) {
        self.left.size_hint()
    }
}

impl ExactSizeIterator for PageRows<'_> {}

impl FusedIterator for PageRows<'_> {}
