//! A lent slice inside a larger buffer, so that whatever a call does beside it is seen.

use crate::random::Random;
use std::{fmt::Display, iter};

/// How many entries stand on either side of the lent ones.
const GUARD: usize = 8;

/// The types of which slices are lent.
pub trait Entry: Copy + PartialEq + Display {
    fn from_bits(bits: u64) -> Self;
}

macro_rules! entries {
    ($($type:ty),*) => { $(impl Entry for $type { fn from_bits(bits: u64) -> $type { bits as $type } })* };
}
entries!(u8, u16, u32, i16, i32);

/// Of one kind in a buffer: any bits, or small numbers, which could pass for real entries.
fn arbitrary_entries<T: Entry>(random: &mut Random) -> impl Iterator<Item = T> + '_ {
    let mask = random.pick(&[u64::MAX, 7, 1]);
    iter::repeat_with(move || T::from_bits(random.draw() & mask))
}

/// Guard entries, the lent entries, guard entries. Whatever is not given has arbitrary content.
#[derive(Clone, PartialEq)]
pub struct Buffer<T> {
    entries: Vec<T>,
    /// `GUARD`, or 0 if nothing is lent.
    guard: usize,
}

impl<T: Entry> Buffer<T> {
    /// For a slice that a call does not have. Guard entries there would take most of a run's time.
    pub fn none() -> Buffer<T> {
        Buffer { entries: Vec::new(), guard: 0 }
    }

    pub fn arbitrary(length: usize, random: &mut Random) -> Buffer<T> {
        let entries = arbitrary_entries(random).take(length + 2 * GUARD).collect();
        Buffer { entries, guard: GUARD }
    }

    pub fn holding(content: &[T], random: &mut Random) -> Buffer<T> {
        let mut guards = arbitrary_entries::<T>(random);
        let mut entries = Vec::with_capacity(content.len() + 2 * GUARD);
        entries.extend(guards.by_ref().take(GUARD));
        entries.extend_from_slice(content);
        entries.extend(guards.take(GUARD));
        Buffer { entries, guard: GUARD }
    }

    pub fn lent(&self) -> &[T] {
        &self.entries[self.guard..self.entries.len() - self.guard]
    }

    pub fn lent_mut(&mut self) -> &mut [T] {
        let end = self.entries.len() - self.guard;
        &mut self.entries[self.guard..end]
    }

    /// Puts `content` at the front of the lent entries.
    pub fn write(&mut self, content: &[T]) {
        self.lent_mut()[..content.len()].copy_from_slice(content);
    }

    /// Where a buffer that should be equal to this one first is not. Places before and after the lent entries are guard entries.
    pub fn first_difference(&self, found: &Buffer<T>) -> Option<String> {
        let place = self.entries.iter().zip(&found.entries).position(|(expected, found)| expected != found)?;
        let (expected, found) = (self.entries[place], found.entries[place]);
        let place = place as isize - self.guard as isize;
        Some(format!("[{place}] of {} is {found} instead of {expected}", self.lent().len()))
    }
}

#[cfg(test)]
mod tests {
    use super::*;

    #[test]
    fn a_changed_guard_entry_is_noticed() {
        let buffer = Buffer::holding(&[1_u16, 2, 3], &mut Random::new(1));
        assert_eq!(buffer.first_difference(&buffer), None);
        for (place, name) in [(0, "[-8]"), (GUARD - 1, "[-1]"), (GUARD + 3, "[3]"), (2 * GUARD + 2, "[10]")] {
            let mut changed = buffer.clone();
            changed.entries[place] ^= 1;
            assert!(buffer.first_difference(&changed).is_some_and(|difference| difference.starts_with(name)));
        }
    }

    #[test]
    fn content_stands_between_guard_entries() {
        let random = &mut Random::new(2);
        let (mut held, any, none) = (Buffer::holding(&[1_u8, 2], random), Buffer::<u8>::arbitrary(2, random), Buffer::<u8>::none());
        assert_eq!((held.lent(), held.entries.len()), (&[1, 2][..], 2 * GUARD + 2));
        held.write(&[3]);
        assert_eq!(held.lent(), [3, 2]);
        assert_eq!((any.lent().len(), any.entries.len()), (2, 2 * GUARD + 2));
        assert_eq!((none.lent().len(), none.entries.len()), (0, 0));
    }
}
