//! What the sources use of Rattle's library: an allocator's name, vectors and heaps whose allocations may fail, and clones that may fail. By hand.
use std::collections::binary_heap;

/// An allocation failed.
#[derive(Clone, Copy, Debug, PartialEq, Eq)]
pub struct AllocError;

/// The allocator: the program's own, so there is nothing to say of it.
#[derive(Clone, Copy, Debug, Default)]
pub struct Global;

/// What each made module names without a `use`.
pub(crate) mod prelude {
    pub(crate) use super::{TryClone, Vec};
}

/// A clone that may fail. In Rust it can't say so: it aborts or panics.
pub trait TryClone: Sized {
    /// Returns a clone.
    fn try_clone(&self) -> Result<Self, AllocError>;
}

impl<T: Clone> TryClone for T {
    #[inline(always)]
    fn try_clone(&self) -> Result<T, AllocError> {
        Ok(self.clone())
    }
}

/// A vector whose allocations may fail.
#[derive(Debug)]
pub struct Vec<T>(pub(crate) std::vec::Vec<T>);

impl<T> Vec<T> {
    pub fn new(_: Global) -> Vec<T> {
        Vec(std::vec::Vec::new())
    }

    pub fn with_capacity(_: Global, n: usize) -> Result<Vec<T>, AllocError> {
        let mut vec = std::vec::Vec::new();
        vec.try_reserve_exact(n).map_err(|_| AllocError)?;
        Ok(Vec(vec))
    }

    pub fn push(&mut self, value: T) -> Result<(), AllocError> {
        self.0.try_reserve(1).map_err(|_| AllocError)?;
        self.0.push(value);
        Ok(())
    }

    pub fn resize(&mut self, n: usize, value: T) -> Result<(), AllocError>
    where
        T: Clone,
    {
        self.0.try_reserve(n.saturating_sub(self.0.len())).map_err(|_| AllocError)?;
        self.0.resize(n, value);
        Ok(())
    }

    pub fn truncate(&mut self, n: usize) {
        self.0.truncate(n);
    }

    #[inline(always)]
    pub fn as_slice(&self) -> &[T] {
        &self.0
    }

    #[inline(always)]
    pub fn as_mut_slice(&mut self) -> &mut [T] {
        &mut self.0
    }

    pub fn capacity(&self) -> usize {
        self.0.capacity()
    }
}

impl<T> std::ops::Deref for Vec<T> {
    type Target = [T];

    #[inline(always)]
    fn deref(&self) -> &[T] {
        &self.0
    }
}

impl<T> std::ops::DerefMut for Vec<T> {
    #[inline(always)]
    fn deref_mut(&mut self) -> &mut [T] {
        &mut self.0
    }
}

impl<T> IntoIterator for Vec<T> {
    type Item = T;
    type IntoIter = std::vec::IntoIter<T>;

    fn into_iter(self) -> std::vec::IntoIter<T> {
        self.0.into_iter()
    }
}

/// A heap whose allocations may fail.
#[derive(Debug)]
pub struct BinaryHeap<T>(binary_heap::BinaryHeap<T>);

impl<T: Ord> BinaryHeap<T> {
    pub fn with_capacity(_: Global, n: usize) -> Result<BinaryHeap<T>, AllocError> {
        let mut heap = binary_heap::BinaryHeap::new();
        heap.try_reserve_exact(n).map_err(|_| AllocError)?;
        Ok(BinaryHeap(heap))
    }

    pub fn push(&mut self, value: T) -> Result<(), AllocError> {
        self.0.try_reserve(1).map_err(|_| AllocError)?;
        self.0.push(value);
        Ok(())
    }

    pub fn pop(&mut self) -> Option<T> {
        self.0.pop()
    }

    pub fn peek(&self) -> Option<&T> {
        self.0.peek()
    }

    pub fn len(&self) -> usize {
        self.0.len()
    }

    pub fn into_sorted_vec(self) -> std::vec::Vec<T> {
        self.0.into_sorted_vec()
    }
}

/// The hasher of the source's `FixedState`, which this crate doesn't show.
#[derive(Clone, Debug, Default)]
pub struct FoldHasher(std::hash::DefaultHasher);

impl std::hash::Hasher for FoldHasher {
    fn finish(&self) -> u64 {
        self.0.finish()
    }

    fn write(&mut self, bytes: &[u8]) {
        self.0.write(bytes);
    }
}
