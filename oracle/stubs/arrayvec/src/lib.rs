//! Stands for `arrayvec`: a vector of fixed capacity, for elements that are copied.
//!
//! The layout is that of the real crate, a 32-bit length and an array that is not initialised, so that RITM's searches
//! cost here what they cost there.
#![no_std]

use core::mem::MaybeUninit;
use core::ops::Deref;
use core::{ptr, slice};

/// Up to `CAP` elements.
#[derive(Clone, Copy)]
pub struct ArrayVec<T: Copy, const CAP: usize> {
    /// How many of the first elements are initialised; at most `CAP`.
    len: u32,
    elements: [MaybeUninit<T>; CAP],
}

impl<T: Copy, const CAP: usize> ArrayVec<T, CAP> {
    /// No element.
    #[must_use]
    pub const fn new() -> Self {
        Self { len: 0, elements: [const { MaybeUninit::uninit() }; CAP] }
    }

    /// Whether there is no room left.
    #[must_use]
    pub const fn is_full(&self) -> bool {
        self.len as usize == CAP
    }

    /// Adds an element at the end.
    ///
    /// # Panics
    ///
    /// If there is no room.
    #[inline]
    #[track_caller]
    pub fn push(&mut self, element: T) {
        assert!(!self.is_full(), "push: the vector is full");
        self.elements[self.len as usize] = MaybeUninit::new(element);
        self.len += 1;
    }

    /// Puts an element before the one at `index`.
    ///
    /// # Panics
    ///
    /// If there is no room, or `index` is above the length.
    #[inline]
    #[track_caller]
    pub fn insert(&mut self, index: usize, element: T) {
        let len = self.len as usize;
        assert!(!self.is_full(), "insert: the vector is full");
        assert!(index <= len, "insert: {index} is above the length {len}");
        // SAFETY: `index <= len < CAP`, so both the elements that move by one place and the new one lie in the array.
        unsafe {
            let place = self.elements.as_mut_ptr().add(index);
            ptr::copy(place, place.add(1), len - index);
            place.write(MaybeUninit::new(element));
        }
        self.len += 1;
    }
}

impl<T: Copy, const CAP: usize> Default for ArrayVec<T, CAP> {
    fn default() -> Self {
        Self::new()
    }
}

impl<T: Copy, const CAP: usize> Deref for ArrayVec<T, CAP> {
    type Target = [T];

    #[inline]
    fn deref(&self) -> &[T] {
        // SAFETY: the first `len` elements are initialised, and `MaybeUninit<T>` has the layout of `T`.
        unsafe { slice::from_raw_parts(self.elements.as_ptr().cast(), self.len as usize) }
    }
}

impl<'a, T: Copy, const CAP: usize> IntoIterator for &'a ArrayVec<T, CAP> {
    type Item = &'a T;
    type IntoIter = slice::Iter<'a, T>;

    #[inline]
    fn into_iter(self) -> slice::Iter<'a, T> {
        self.iter()
    }
}

#[cfg(test)]
mod tests {
    use super::ArrayVec;

    #[test]
    fn elements_stand_where_they_were_put() {
        let mut vector = ArrayVec::<u8, 4>::new();
        vector.push(2);
        vector.insert(0, 1);
        vector.insert(2, 4);
        vector.insert(2, 3);
        assert_eq!(*vector, [1, 2, 3, 4]);
        assert!(vector.is_full());
    }

    #[test]
    #[should_panic(expected = "insert: the vector is full")]
    fn a_full_vector_takes_none() {
        let mut vector = ArrayVec::<u8, 1>::new();
        vector.push(1);
        vector.insert(0, 2);
    }
}
