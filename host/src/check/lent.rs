//! Slices lent to a call, with guards on both sides.

const GUARD: usize = 8;

/// What slices hold: words or bytes.
pub trait Unit: Copy + PartialEq {
    fn guard(at: usize) -> Self;
}

impl Unit for u32 {
    fn guard(at: usize) -> u32 {
        0xC0DE_0000 + at as u32
    }
}

impl Unit for u8 {
    fn guard(at: usize) -> u8 {
        0xC0 + at as u8
    }
}

pub struct Lent<T> {
    units: Vec<T>,
}

impl<T: Unit> Lent<T> {
    fn around(inner: impl ExactSizeIterator<Item = T>) -> Lent<T> {
        let mut units = Vec::with_capacity(inner.len() + 2 * GUARD);
        units.extend((0..GUARD).map(T::guard));
        units.extend(inner);
        units.extend((0..GUARD).map(T::guard));
        Lent { units }
    }

    pub fn copy(units: &[T]) -> Lent<T> {
        Lent::around(units.iter().copied())
    }

    pub fn filled(length: usize, fill: T) -> Lent<T> {
        Lent::around(std::iter::repeat_n(fill, length))
    }

    pub fn read(&self) -> &[T] {
        &self.units[GUARD..self.units.len() - GUARD]
    }

    pub fn write(&mut self) -> &mut [T] {
        let end = self.units.len() - GUARD;
        &mut self.units[GUARD..end]
    }

    pub fn guarded(&self) -> bool {
        let end = self.units.len() - GUARD;
        (0..GUARD).all(|at| self.units[at] == T::guard(at) && self.units[end + at] == T::guard(at))
    }

    pub fn inner(self) -> Vec<T> {
        self.read().to_vec()
    }
}
