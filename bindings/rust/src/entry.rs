//! The entry of a value. By hand: it borrows the proved bag, and takes an entry of it for each call, so that the call can be guarded.
use crate::BagError;
use crate::bag::guarded;
use crate::error::ok;
use crate::made::hashbag_core as proved;
use std::fmt;
use std::hash::{BuildHasher, Hash};

/// The entry of a value, returned by [`HashBag::entry`](crate::HashBag::entry): a mutable borrow of the bag, and the value.
///
/// An entry that is dropped changes nothing. `Debug` writes the value.
///
/// # Examples
///
/// ```
/// let mut bag = hashbag::HashBag::new();
/// bag.entry("nut").and_modify(|count| *count += 1).or_insert_many(3);
/// assert_eq!(bag.contains("nut"), 3);
/// bag.entry("nut").and_modify(|count| *count += 1).or_insert_many(3);
/// assert_eq!(bag.contains("nut"), 4);
/// ```
pub struct Entry<'a, T, S> {
    pub(crate) bag: &'a mut proved::HashBag<T, S>,
    pub(crate) value: T,
}

impl<T: fmt::Debug, S> fmt::Debug for Entry<'_, T, S> {
    fn fmt(&self, f: &mut fmt::Formatter<'_>) -> fmt::Result {
        f.debug_tuple("Entry").field(&self.value).finish()
    }
}

impl<'a, T: Hash + Eq, S: BuildHasher> Entry<'a, T, S> {
    /// If the value is present, calls `f` with its count, and sets the count to what `f` leaves there. If `f` leaves 0, the value is removed, and the
    /// returned entry is vacant. If the value is absent, `f` isn't called.
    ///
    /// Hashes the value twice if it is present, and once if it is absent. Doesn't allocate.
    ///
    /// # Panics
    ///
    /// Panics if the total would pass the limit. The bag is then unchanged.
    ///
    /// # Examples
    ///
    /// ```
    /// let mut bag: hashbag::HashBag<_> = [5].into_iter().collect();
    /// bag.entry(5).and_modify(|count| *count += 2);
    /// bag.entry(6).and_modify(|count| *count += 2);
    /// assert_eq!(bag.len(), 3);
    /// ```
    #[track_caller]
    pub fn and_modify<F>(self, f: F) -> Self
    where
        F: FnOnce(&mut usize),
    {
        ok(self.try_and_modify(f))
    }

    /// Does the same as [`Entry::and_modify`], but returns an error instead of panicking.
    ///
    /// # Errors
    ///
    /// Returns [`BagError::TooMany`] if the total would pass the limit. The bag is then unchanged, and the entry's value is dropped.
    ///
    /// # Examples
    ///
    /// ```
    /// use hashbag::{BagError, HashBag};
    ///
    /// let mut bag: HashBag<_> = [5].into_iter().collect();
    /// bag.set_limit(2).unwrap();
    /// assert_eq!(bag.entry(5).try_and_modify(|count| *count = 3).err(), Some(BagError::TooMany));
    /// ```
    pub fn try_and_modify<F>(self, f: F) -> Result<Self, BagError>
    where
        F: FnOnce(&mut usize),
    {
        let Entry { bag, value } = self;
        let value = guarded(bag, |bag| bag.entry(value).and_modify(f).map(|entry| entry.value))?;
        Ok(Entry { bag, value })
    }

    /// Returns a reference to the stored instance if the value is present, and else to the value that the entry was made of.
    ///
    /// Hashes the value once. Doesn't allocate.
    ///
    /// # Examples
    ///
    /// ```
    /// let mut bag: hashbag::HashBag<_> = [5].into_iter().collect();
    /// assert_eq!(bag.entry(6).value(), &6);
    /// ```
    pub fn value(&self) -> &T {
        self.bag.get(&self.value).map_or(&self.value, |(stored, _)| stored)
    }

    /// Inserts the value once if it is absent, and returns its count after that.
    ///
    /// Hashes the value once, or twice if it is inserted. Inserting costs what [`HashBag::insert`](crate::HashBag::insert) costs.
    ///
    /// # Panics
    ///
    /// Panics if the total would pass the limit, or if an allocation fails. The bag is then unchanged.
    ///
    /// # Examples
    ///
    /// ```
    /// let mut bag: hashbag::HashBag<_> = [5, 5].into_iter().collect();
    /// assert_eq!(bag.entry(5).or_insert(), 2);
    /// assert_eq!(bag.entry(6).or_insert(), 1);
    /// ```
    #[track_caller]
    pub fn or_insert(self) -> usize {
        self.or_insert_many(1)
    }

    /// Inserts the value `quantity` times if it is absent, and returns its count after that.
    ///
    /// Hashes the value once, or twice if it is inserted. Inserting costs what [`HashBag::insert`](crate::HashBag::insert) costs.
    ///
    /// # Panics
    ///
    /// Panics if the total would pass the limit, or if an allocation fails. The bag is then unchanged.
    ///
    /// # Examples
    ///
    /// ```
    /// let mut bag = hashbag::HashBag::new();
    /// assert_eq!(bag.entry(5).or_insert_many(3), 3);
    /// assert_eq!(bag.entry(5).or_insert_many(4), 3);
    /// ```
    #[track_caller]
    pub fn or_insert_many(self, quantity: usize) -> usize {
        ok(self.try_or_insert_many(quantity))
    }

    /// Does the same as [`Entry::or_insert_many`], but returns an error instead of panicking.
    ///
    /// # Errors
    ///
    /// Returns [`BagError::TooMany`] if the total would pass the limit, and else [`BagError::Memory`] if an allocation fails. The bag is then
    /// unchanged, and the entry's value is dropped.
    ///
    /// # Examples
    ///
    /// ```
    /// let mut bag = hashbag::HashBag::new();
    /// assert_eq!(bag.entry(5).try_or_insert_many(3), Ok(3));
    /// ```
    pub fn try_or_insert_many(self, quantity: usize) -> Result<usize, BagError> {
        let Entry { bag, value } = self;
        Ok(bag.entry(value).or_insert_many(quantity)?)
    }
}
