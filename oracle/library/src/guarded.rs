//! Lent slices with canaries on both sides.

const GUARD: usize = 32;

pub trait Canary: Copy + PartialEq {
    const CANARY: Self;
    /// What a lent answer holds before the call.
    const UNWRITTEN: Self;
}

impl Canary for u8 {
    const CANARY: u8 = 0xC5;
    const UNWRITTEN: u8 = 0x5E;
}

impl Canary for u64 {
    const CANARY: u64 = 0xC5C5_1234_5678_C5C5;
    const UNWRITTEN: u64 = 0x5EED_5EED_5EED_5EED;
}

#[derive(Clone, PartialEq)]
pub struct Guarded<T> {
    cells: Vec<T>,
}

impl<T: Canary> Guarded<T> {
    pub fn of(values: &[T]) -> Guarded<T> {
        let guard = [T::CANARY; GUARD];
        Guarded { cells: [&guard, values, &guard].concat() }
    }

    pub fn unwritten(length: usize) -> Guarded<T> {
        Guarded::of(&vec![T::UNWRITTEN; length])
    }

    pub fn len(&self) -> usize {
        self.cells.len() - 2 * GUARD
    }

    pub fn values(&self) -> &[T] {
        &self.cells[GUARD..self.cells.len() - GUARD]
    }

    pub fn values_mut(&mut self) -> &mut [T] {
        let end = self.cells.len() - GUARD;
        &mut self.cells[GUARD..end]
    }

    pub fn as_ptr(&self) -> *const T {
        self.values().as_ptr()
    }

    pub fn as_mut_ptr(&mut self) -> *mut T {
        // Of the whole, so that the pointer may reach the canaries: what is to be seen is whether it did.
        unsafe { self.cells.as_mut_ptr().add(GUARD) }
    }

    pub fn canaries_live(&self) -> bool {
        let (end, canary) = (self.cells.len() - GUARD, |cell: &T| *cell == T::CANARY);
        self.cells[..GUARD].iter().all(canary) && self.cells[end..].iter().all(canary)
    }

    pub fn is_unwritten(&self) -> bool {
        self.values().iter().all(|value| *value == T::UNWRITTEN)
    }

    /// A deliberate fault, for `ORACLE_WRONG=canary`.
    pub fn write_past_the_end(&mut self, value: T) {
        let end = self.cells.len() - GUARD;
        self.cells[end] = value;
    }
}
