//! Slices to lend, with guard numbers on both sides.

/// A slice that holds something at first, between guards.
pub struct Guarded<T> {
    held: Vec<T>,
    len: usize,
    guard: T,
}

const WIDTH: usize = 16;

impl<T: Copy + PartialEq> Guarded<T> {
    /// A slice of `len` numbers that hold `fill`, between guards that hold `guard`.
    pub fn new(len: usize, fill: T, guard: T) -> Guarded<T> {
        let mut held = vec![guard; len + 2 * WIDTH];
        held[WIDTH..WIDTH + len].fill(fill);
        Guarded { held, len, guard }
    }

    /// A slice that holds `items`.
    pub fn of(items: &[T], guard: T) -> Guarded<T> {
        let mut made = Guarded::new(items.len(), guard, guard);
        made.lend_mut().copy_from_slice(items);
        made
    }

    /// The slice.
    pub fn lend(&self) -> &[T] {
        &self.held[WIDTH..WIDTH + self.len]
    }

    /// The slice, to be written.
    pub fn lend_mut(&mut self) -> &mut [T] {
        &mut self.held[WIDTH..WIDTH + self.len]
    }

    /// Whether both guards are as they were.
    pub fn unharmed(&self) -> bool {
        let (before, rest) = self.held.split_at(WIDTH);
        let after = &rest[self.len..];
        before.iter().chain(after).all(|&x| x == self.guard)
    }
}
