use std::fmt;

use crate::SlabAddress;

/// Why an object is to be moved, or stays: what [`Store::reason_for_object`](crate::Store::reason_for_object) answers of an id and a ratio. Shown, it is
/// the sentence that staff read.
///
/// ```
/// use wentuhoro::{ReasonKind, Row, SlabAddress, Standing, Store};
///
/// // Two objects, in slots 1 and 7 of slab 3.
/// let at = |slot| SlabAddress::from_slab_slot(3, slot);
/// let mut store = Store::new(9, 8)?;
/// store.rebuild(&[Row::new(5, at(7)?), Row::new(6, at(1)?)])?;
///
/// let reason = store.reason_for_object(5, 0.5)?;
/// assert_eq!(reason.kind, ReasonKind::Listed { standing: Standing { location: at(7)?, smaller: 1, live: 2, tip: 8 }, line: 4 });
/// assert_eq!(
///     reason.to_string(),
///     "object 5 (slab 3, slot 7): moved, since 2 of the 8 slots below the tip are in use (ratio 0.5, line 4); \
///      1 smaller slot is taken"
/// );
/// # Ok::<(), wentuhoro::Refusal>(())
/// ```
#[derive(Clone, Copy, Debug, PartialEq)]
pub struct Reason {
    /// As it was asked.
    pub id: u64,
    /// As it was asked.
    pub target_fill_ratio: f32,
    pub kind: ReasonKind,
}

/// The four reasons, of which exactly one applies.
#[derive(Clone, Copy, Debug, PartialEq, Eq, Hash)]
pub enum ReasonKind {
    /// No such stored object: [`Store::find`](crate::Store::find) refuses the id with 8.
    NotStored,
    /// Its slab is full enough: nothing of it is listed.
    FullEnough(Standing),
    /// Its slot is before the line, the first slot of its slab that is looked at.
    BeforeLine { standing: Standing, line: usize },
    /// [`Store::objects_to_defrag`](crate::Store::objects_to_defrag) lists it: its slot is the line or one after it.
    Listed { standing: Standing, line: usize },
}

/// Where a stored object stands in its slab.
#[derive(Clone, Copy, Debug, PartialEq, Eq, Hash)]
pub struct Standing {
    pub location: SlabAddress,
    /// How many smaller slots of its slab are held or pending.
    pub smaller: usize,
    /// How many slots of its slab are held or pending.
    pub live: usize,
    /// The largest of those, plus 1.
    pub tip: usize,
}

impl Reason {
    /// The exported call's values.
    pub(crate) fn told(id: u64, target_fill_ratio: f32, values: [u64; 7]) -> Reason {
        let [number, slab, slot, smaller, live, tip, line] = values.map(|value| value as usize);
        let standing = || Standing {
            location: SlabAddress::from_slab_slot(slab, slot).expect("a stored object has a location"),
            smaller,
            live,
            tip,
        };
        let kind = match number {
            0 => ReasonKind::NotStored,
            1 => ReasonKind::FullEnough(standing()),
            2 => ReasonKind::BeforeLine { standing: standing(), line },
            3 => ReasonKind::Listed { standing: standing(), line },
            _ => unreachable!("there are four reasons"),
        };
        Reason { id, target_fill_ratio, kind }
    }

    /// Whether the object is to be moved.
    ///
    /// ```
    /// # use wentuhoro::{Row, SlabAddress, Store};
    /// # let mut store = Store::new(9, 8)?;
    /// # store.rebuild(&[Row::new(5, SlabAddress::from_slab_slot(3, 7)?)])?;
    /// let listed = store.objects_to_defrag(0.5)?;
    /// for id in 0..9 {
    ///     let is_listed = listed.iter().any(|(other, _)| *other == id);
    ///     assert_eq!(store.reason_for_object(id, 0.5)?.is_listed(), is_listed);
    /// }
    /// # Ok::<(), wentuhoro::Refusal>(())
    /// ```
    pub fn is_listed(&self) -> bool {
        matches!(self.kind, ReasonKind::Listed { .. })
    }

    /// Where the object stands in its slab; none where nothing is stored.
    ///
    /// ```
    /// # use wentuhoro::{Row, SlabAddress, Store};
    /// # let location = SlabAddress::from_slab_slot(3, 7)?;
    /// # let mut store = Store::new(9, 8)?;
    /// # store.rebuild(&[Row::new(5, location)])?;
    /// let standing = store.reason_for_object(5, 0.5)?.standing().unwrap();
    /// assert_eq!((standing.location, standing.smaller, standing.live, standing.tip), (location, 0, 1, 8));
    /// assert_eq!(store.reason_for_object(6, 0.5)?.standing(), None);
    /// # Ok::<(), wentuhoro::Refusal>(())
    /// ```
    pub fn standing(&self) -> Option<Standing> {
        match self.kind {
            ReasonKind::NotStored => None,
            ReasonKind::FullEnough(standing) => Some(standing),
            ReasonKind::BeforeLine { standing, .. } | ReasonKind::Listed { standing, .. } => Some(standing),
        }
    }

    /// The first slot of the slab that is looked at; none where the slab is full enough, or nothing is stored.
    ///
    /// ```
    /// # use wentuhoro::{Row, SlabAddress, Store};
    /// # let mut store = Store::new(9, 8)?;
    /// # store.rebuild(&[Row::new(5, SlabAddress::from_slab_slot(3, 7)?)])?;
    /// assert_eq!(store.reason_for_object(5, 0.5)?.line(), Some(2));
    /// assert_eq!(store.reason_for_object(5, 0.1)?.line(), None);
    /// # Ok::<(), wentuhoro::Refusal>(())
    /// ```
    pub fn line(&self) -> Option<usize> {
        match self.kind {
            ReasonKind::NotStored | ReasonKind::FullEnough(_) => None,
            ReasonKind::BeforeLine { line, .. } | ReasonKind::Listed { line, .. } => Some(line),
        }
    }
}

// The parts of the sentence.
impl Standing {
    fn place(&self) -> String {
        format!("(slab {}, slot {})", self.location.slab(), self.location.slot())
    }

    fn in_use(&self) -> String {
        match (self.live, self.tip) {
            (_, 1) => "the only slot below the tip is in use".into(),
            (1, tip) => format!("1 of the {tip} slots below the tip is in use"),
            (live, tip) => format!("{live} of the {tip} slots below the tip are in use"),
        }
    }

    fn taken_below(&self) -> String {
        match self.smaller {
            0 => "no smaller slot is taken".into(),
            1 => "1 smaller slot is taken".into(),
            smaller => format!("{smaller} smaller slots are taken"),
        }
    }
}

/// The sentence that the program `why` writes.
impl fmt::Display for Reason {
    fn fmt(&self, f: &mut fmt::Formatter<'_>) -> fmt::Result {
        let Reason { id, target_fill_ratio: ratio, kind } = self;
        let (standing, why) = match kind {
            ReasonKind::NotStored => return write!(f, "object {id}: no such stored object"),
            ReasonKind::FullEnough(standing) => {
                (standing, format!("stays, since {}, which is full enough (ratio {ratio})", standing.in_use()))
            }
            ReasonKind::BeforeLine { standing, line } => {
                let in_use = standing.in_use();
                (standing, format!("stays, since its slot is before the line, though {in_use} (ratio {ratio}, line {line})"))
            }
            ReasonKind::Listed { standing, line } => {
                (standing, format!("moved, since {} (ratio {ratio}, line {line})", standing.in_use()))
            }
        };
        write!(f, "object {id} {}: {why}; {}", standing.place(), standing.taken_below())
    }
}
