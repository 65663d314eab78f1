//! Operations on whole bags, as methods. By hand: each is one call of a proved function, guarded if it changes a bag.
use crate::bag::guarded;
use crate::error::ok;
use crate::made::hashbag_ops as proved;
use crate::rattle::Global;
use crate::{BagError, HashBag};
use std::hash::{BuildHasher, Hash};

/// Operations on whole bags. The two bags' states may differ.
impl<T: Eq + Hash, S: BuildHasher> HashBag<T, S> {
    /// Adds all occurrences of `other`: each count becomes the sum of both counts. The instances that are stored here stay.
    ///
    /// Hashes each distinct value of `other` once, and a second time if it is inserted when there is no room. If this bag might lack room, slots for
    /// the values of both bags are allocated first; if they are used, each value of this bag is hashed once.
    ///
    /// # Panics
    ///
    /// Panics if the total would pass the limit, or if an allocation fails. This bag is then unchanged.
    ///
    /// # Examples
    ///
    /// ```
    /// let mut all: hashbag::HashBag<_> = ["bolt", "nut"].into_iter().collect();
    /// all.merge(["bolt"].into_iter().collect::<hashbag::HashBag<_>>());
    /// assert_eq!(all.contains("bolt"), 2);
    /// ```
    #[track_caller]
    pub fn merge<OtherS: BuildHasher>(&mut self, other: HashBag<T, OtherS>) {
        ok(self.try_merge(other));
    }

    /// Does the same as [`HashBag::merge`], but returns an error instead of panicking.
    ///
    /// # Errors
    ///
    /// Returns [`BagError::TooMany`] if the total would pass the limit, and else [`BagError::Memory`] if an allocation fails. This bag is then
    /// unchanged, and `other` is dropped.
    ///
    /// # Examples
    ///
    /// ```
    /// let mut all: hashbag::HashBag<_> = ["bolt"].into_iter().collect();
    /// assert_eq!(all.try_merge(all.clone()), Ok(()));
    /// assert_eq!(all.contains("bolt"), 2);
    /// ```
    pub fn try_merge<OtherS: BuildHasher>(&mut self, other: HashBag<T, OtherS>) -> Result<(), BagError> {
        Ok(guarded(&mut self.0, |bag| proved::merge(bag, other.0))?)
    }

    /// Raises each count to the greater of both counts. Values that only `other` has are inserted.
    ///
    /// Hashes each distinct value of `other` at most three times. Each value of this bag is hashed once if `other` has more distinct values, and once
    /// more if this bag grows.
    ///
    /// # Panics
    ///
    /// Panics if the total would pass the limit, or if an allocation fails. This bag is then unchanged.
    ///
    /// # Examples
    ///
    /// ```
    /// let mut needed: hashbag::HashBag<_> = ["bolt", "nut"].into_iter().collect();
    /// needed.keep_most(["bolt", "bolt"].into_iter().collect::<hashbag::HashBag<_>>());
    /// assert_eq!((needed.contains("bolt"), needed.contains("nut")), (2, 1));
    /// ```
    #[track_caller]
    pub fn keep_most<OtherS: BuildHasher>(&mut self, other: HashBag<T, OtherS>) {
        ok(self.try_keep_most(other));
    }

    /// Does the same as [`HashBag::keep_most`], but returns an error instead of panicking.
    ///
    /// # Errors
    ///
    /// Returns [`BagError::TooMany`] if the total would pass the limit, and else [`BagError::Memory`] if an allocation fails. This bag is then
    /// unchanged, and `other` is dropped.
    ///
    /// # Examples
    ///
    /// ```
    /// let mut needed: hashbag::HashBag<_> = ["bolt"].into_iter().collect();
    /// assert_eq!(needed.try_keep_most(needed.clone()), Ok(()));
    /// assert_eq!(needed.len(), 1);
    /// ```
    pub fn try_keep_most<OtherS: BuildHasher>(&mut self, other: HashBag<T, OtherS>) -> Result<(), BagError> {
        Ok(guarded(&mut self.0, |bag| proved::keep_most(bag, other.0))?)
    }

    /// Lowers each count to the lesser of both counts. Values that `other` doesn't have are removed and dropped.
    ///
    /// Hashes each distinct value of this bag once. Doesn't allocate.
    ///
    /// # Examples
    ///
    /// ```
    /// let mut stock: hashbag::HashBag<_> = ["bolt", "bolt", "nut"].into_iter().collect();
    /// stock.keep_common(&["bolt"].into_iter().collect::<hashbag::HashBag<_>>());
    /// assert_eq!(stock.iter().collect::<Vec<_>>(), [&"bolt"]);
    /// ```
    pub fn keep_common<OtherS: BuildHasher>(&mut self, other: &HashBag<T, OtherS>) {
        guarded(&mut self.0, |bag| proved::keep_common(bag, &other.0));
    }

    /// Lowers each count by the count in `other`, to 0 at least. Values whose count becomes 0 are removed and dropped.
    ///
    /// Hashes each distinct value of the bag with fewer distinct values once. Doesn't allocate.
    ///
    /// # Examples
    ///
    /// ```
    /// let mut stock: hashbag::HashBag<_> = ["bolt", "bolt", "nut"].into_iter().collect();
    /// stock.take_away(&["bolt", "nut", "nut"].into_iter().collect::<hashbag::HashBag<_>>());
    /// assert_eq!(stock.iter().collect::<Vec<_>>(), [&"bolt"]);
    /// ```
    pub fn take_away<OtherS: BuildHasher>(&mut self, other: &HashBag<T, OtherS>) {
        guarded(&mut self.0, |bag| proved::take_away(bag, &other.0));
    }

    /// Returns `true` if each value of `other` occurs here at least as often as there.
    ///
    /// Hashes each distinct value of `other` at most once, and stops at the first that occurs too rarely here. Doesn't allocate.
    ///
    /// # Examples
    ///
    /// ```
    /// let stock: hashbag::HashBag<_> = ["bolt", "bolt", "nut"].into_iter().collect();
    /// assert!(stock.contains_all(&["bolt", "nut"].into_iter().collect::<hashbag::HashBag<_>>()));
    /// ```
    pub fn contains_all<OtherS: BuildHasher>(&self, other: &HashBag<T, OtherS>) -> bool {
        proved::contains_all(&self.0, &other.0)
    }

    /// Returns `true` if no value is in both bags.
    ///
    /// Hashes each distinct value of the bag with fewer distinct values at most once, and stops at the first that is in both. Doesn't allocate.
    ///
    /// # Examples
    ///
    /// ```
    /// let stock: hashbag::HashBag<_> = ["bolt", "nut"].into_iter().collect();
    /// assert!(stock.is_disjoint(&["screw"].into_iter().collect::<hashbag::HashBag<_>>()));
    /// ```
    pub fn is_disjoint<OtherS: BuildHasher>(&self, other: &HashBag<T, OtherS>) -> bool {
        proved::is_disjoint(&self.0, &other.0)
    }

    /// Returns the greatest count, or 0 if the bag is empty.
    ///
    /// Takes time proportional to the number of slots. Doesn't hash or allocate.
    ///
    /// # Examples
    ///
    /// ```
    /// assert_eq!([5, 6, 5].into_iter().collect::<hashbag::HashBag<_>>().max_count(), 2);
    /// ```
    pub fn max_count(&self) -> usize {
        proved::max_count(&self.0)
    }

    /// Returns the distinct values and their counts, sorted by value.
    ///
    /// Allocates one vector, and sorts it. Hashes nothing.
    ///
    /// # Panics
    ///
    /// Panics if the allocation fails.
    ///
    /// # Examples
    ///
    /// ```
    /// let bag: hashbag::HashBag<_> = [6, 5, 6].into_iter().collect();
    /// assert_eq!(bag.sorted(), [(&5, 1), (&6, 2)]);
    /// ```
    #[track_caller]
    pub fn sorted(&self) -> Vec<(&T, usize)>
    where
        T: Ord,
    {
        ok(proved::sorted(Global, &self.0)).0
    }

    /// Returns the `k` distinct values with the greatest counts, or all if there are fewer, with their counts. They are sorted by count, the greatest
    /// first; values with the same count are sorted by value.
    ///
    /// Allocates `k` pairs and keeps no more than them. With n distinct values, it compares about n + `k` log `k` times, and more often if counts
    /// happen to come in ascending order. Hashes nothing.
    ///
    /// # Panics
    ///
    /// Panics if an allocation fails.
    ///
    /// # Examples
    ///
    /// ```
    /// let bag: hashbag::HashBag<_> = [6, 5, 6, 7].into_iter().collect();
    /// assert_eq!(bag.most_common(2), [(&6, 2), (&5, 1)]);
    /// ```
    #[track_caller]
    pub fn most_common(&self, k: usize) -> Vec<(&T, usize)>
    where
        T: Ord,
    {
        ok(proved::most_common(Global, &self.0, k)).0
    }
}
