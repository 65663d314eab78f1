//! The public type. By hand, since it is in Rust's own forms: bounds, panics, traits, documentation.
//!
//! A method is one call of the proved bag. Those in which a value's code may run between the change of a count and that of the total are `guarded`:
//! by_hand/hashbag_slots/cells.rs names them.
use crate::error::ok;
use crate::join::{Difference, NotIn, OuterJoin, SignedDifference};
use crate::made::hashbag_core as proved;
use crate::rattle::Global;
use crate::{BagError, Drain, Entry, IntoIter, Iter, SetIter};
use std::borrow::Borrow;
use std::fmt;
use std::hash::{BuildHasher, Hash, RandomState};
use std::mem;

/// A hash bag, also called a counted multiset: distinct values, each with a count of how often it occurs.
///
/// Values that are equal by `==` are one value. It is stored once, as the instance that was inserted first, with a count of at least 1. The sum of
/// all counts, the total, is at most the bag's [limit](HashBag::limit), which is `usize::MAX` if no other was set.
///
/// Values need [`Eq`] and [`Hash`]; equal values must have equal hashes. A value in a bag must not be changed so that its hash or its equality
/// changes. As with `HashMap`, results are unspecified otherwise, but nothing is undefined behavior, and the total stays the sum of the counts.
///
/// # Growth
///
/// A bag that must grow allocates a table of twice as many slots and keeps the former one. Each later insertion of an absent value carries 16 slots
/// from the former table to the new one, so no insertion moves all values. Meanwhile look-ups may probe both tables. See [`HashBag::waiting`] and
/// [`HashBag::finish_carry`].
///
/// # Panics
///
/// A call that inserts panics if the total would pass the limit, or if an allocation fails. The bag is then unchanged; only an `extend` keeps the
/// items before. Each such call but `insert_key`, `extend`, `collect` and [`Entry::or_insert`](crate::Entry::or_insert) has a form whose name begins with `try_`, which
/// returns a [`BagError`] instead. (`try_take` is no such form; it is the original crate's.)
///
/// # After a panic
///
/// If a value's own code, a closure or an iterator panics in a call, the bag can be used on, and the total is the sum of its counts. What is left:
///
/// - The hash, the `==` or a closure of a call for one value: the bag is as before. So it is after a panic in `reserve`, `shrink_to_fit`,
///   `finish_carry` or `clone`.
/// - The drop of a value that was given, replaced or removed: the call has made its change.
/// - `extend`, `retain`, `merge`, `keep_most`, `keep_common`, `take_away`: each value was changed or not. What `other` still has is dropped.
/// - `clear`: each value was removed or not. What was removed and not dropped is leaked.
/// - `drain`, an iterator by value, and the drop of the bag: values that weren't dropped are leaked.
///
/// # Examples
///
/// ```
/// use hashbag::HashBag;
///
/// let mut stock = HashBag::new();
/// stock.insert_many("bolt", 3);
/// stock.insert("nut");
/// assert_eq!(stock.len(), 4);
/// assert_eq!(stock.remove("bolt"), 3);
/// assert_eq!(stock.contains("bolt"), 2);
/// ```
///
/// A bag of references may be declared before what they refer to:
///
/// ```
/// use hashbag::HashBag;
///
/// let mut words = HashBag::new();
/// let text = String::from("the cat and the hat");
/// words.extend(text.split(' '));
/// assert_eq!(words.contains("the"), 2);
/// ```
///
/// But not if the values have a drop of their own, which might read what they refer to:
///
/// ```compile_fail,E0597
/// use hashbag::HashBag;
///
/// #[derive(PartialEq, Eq, Hash)]
/// struct Loud<'a>(&'a str);
///
/// impl Drop for Loud<'_> {
///     fn drop(&mut self) {
///         println!("{}", self.0);
///     }
/// }
///
/// let mut words = HashBag::new();
/// let text = String::from("the cat");
/// words.insert(Loud(&text));
/// ```
pub struct HashBag<T, S = RandomState>(pub(crate) proved::HashBag<T, S>);

/// The bag during a call in which a value's own code runs between the change of a count and of the total. If that code panics, the total is counted
/// anew.
struct Total<'a, T, S>(&'a mut proved::HashBag<T, S>);

impl<T, S> Drop for Total<'_, T, S> {
    #[cold]
    fn drop(&mut self) {
        self.0.count_anew();
    }
}

#[inline(always)]
pub(crate) fn guarded<T, S, R>(bag: &mut proved::HashBag<T, S>, call: impl FnOnce(&mut proved::HashBag<T, S>) -> R) -> R {
    let total = Total(bag);
    let done = call(&mut *total.0);
    mem::forget(total);
    done
}

impl<T: Hash + Eq> HashBag<T, RandomState> {
    /// Returns an empty bag with a new random state.
    ///
    /// Doesn't allocate.
    ///
    /// # Examples
    ///
    /// ```
    /// let bag: hashbag::HashBag<u32> = hashbag::HashBag::new();
    /// assert_eq!(bag.capacity(), 0);
    /// ```
    #[inline]
    pub fn new() -> HashBag<T, RandomState> {
        HashBag::with_hasher(RandomState::new())
    }

    /// Returns an empty bag with room for at least `capacity` distinct values, and with a new random state.
    ///
    /// Allocates once, and not at all if `capacity` is 0.
    ///
    /// # Panics
    ///
    /// Panics if the allocation fails. [`HashBag::try_with_capacity_and_hasher`] returns an error instead.
    ///
    /// # Examples
    ///
    /// ```
    /// let bag: hashbag::HashBag<u32> = hashbag::HashBag::with_capacity(20);
    /// assert!(bag.capacity() >= 20);
    /// ```
    #[inline]
    #[track_caller]
    pub fn with_capacity(capacity: usize) -> HashBag<T, RandomState> {
        HashBag::with_capacity_and_hasher(capacity, RandomState::new())
    }
}

impl<T, S> HashBag<T, S> {
    /// Returns how many distinct values the bag can have before it must grow: [`HashBag::set_len`] plus [`HashBag::room`].
    ///
    /// Takes constant time.
    ///
    /// # Examples
    ///
    /// ```
    /// let mut bag = hashbag::HashBag::new();
    /// bag.insert(7);
    /// assert_eq!(bag.capacity(), 12);
    /// ```
    #[inline]
    pub fn capacity(&self) -> usize {
        self.0.capacity()
    }

    /// Returns an iterator over the occurrences, in arbitrary order. A value that occurs three times is returned three times in a row, as a reference
    /// to the one stored instance.
    ///
    /// Creating the iterator takes constant time. A full run takes time proportional to the number of slots plus the number of occurrences. Nothing
    /// is hashed or allocated.
    ///
    /// # Examples
    ///
    /// ```
    /// let bag: hashbag::HashBag<_> = [5, 6, 5].into_iter().collect();
    /// assert_eq!(bag.iter().sum::<i32>(), 16);
    /// ```
    #[inline]
    pub fn iter(&self) -> Iter<'_, T> {
        Iter(self.0.iter())
    }

    /// Returns an iterator over the distinct values and their counts, in arbitrary order.
    ///
    /// Creating the iterator takes constant time. A full run takes time proportional to the number of slots. Nothing is hashed or allocated.
    ///
    /// # Examples
    ///
    /// ```
    /// let bag: hashbag::HashBag<_> = [5, 6, 5].into_iter().collect();
    /// assert_eq!(bag.set_iter().map(|(_, count)| count).max(), Some(2));
    /// ```
    #[inline]
    pub fn set_iter(&self) -> SetIter<'_, T> {
        SetIter(self.0.set_iter())
    }

    /// Returns the number of occurrences: the sum of all counts.
    ///
    /// Takes constant time.
    ///
    /// # Examples
    ///
    /// ```
    /// assert_eq!([5, 6, 5].into_iter().collect::<hashbag::HashBag<_>>().len(), 3);
    /// ```
    #[inline]
    pub fn len(&self) -> usize {
        self.0.len()
    }

    /// Returns the number of distinct values.
    ///
    /// Takes constant time.
    ///
    /// # Examples
    ///
    /// ```
    /// assert_eq!([5, 6, 5].into_iter().collect::<hashbag::HashBag<_>>().set_len(), 2);
    /// ```
    #[inline]
    pub fn set_len(&self) -> usize {
        self.0.set_len()
    }

    /// Returns `true` if the bag has no occurrences.
    ///
    /// Takes constant time.
    ///
    /// # Examples
    ///
    /// ```
    /// assert!(hashbag::HashBag::<u8>::new().is_empty());
    /// ```
    #[inline]
    pub fn is_empty(&self) -> bool {
        self.0.is_empty()
    }

    /// Removes everything, and returns an iterator over the distinct values and their counts, by value, in arbitrary order.
    ///
    /// The bag is empty as soon as this call returns, even if the iterator is leaked. Values that aren't read are dropped with the iterator. The bag
    /// keeps no slots; call [`HashBag::reserve`] to allocate some again.
    ///
    /// The call takes constant time. A full run of the iterator takes time proportional to the number of slots, which are freed with it. Nothing is
    /// hashed or allocated.
    ///
    /// # Examples
    ///
    /// ```
    /// let mut bag: hashbag::HashBag<_> = [5, 5].into_iter().collect();
    /// assert_eq!(bag.drain().collect::<Vec<_>>(), [(5, 2)]);
    /// assert!(bag.is_empty());
    /// ```
    #[inline]
    pub fn drain(&mut self) -> Drain<'_, T> {
        Drain(self.0.drain())
    }

    /// Removes and drops all values. The slots stay allocated, except for those that wait to be carried.
    ///
    /// Takes time proportional to the number of slots, or constant time if the bag is empty and nothing was removed. Doesn't hash or allocate.
    ///
    /// # Examples
    ///
    /// ```
    /// let mut bag: hashbag::HashBag<_> = [5, 5].into_iter().collect();
    /// bag.clear();
    /// assert_eq!((bag.len(), bag.capacity()), (0, 12));
    /// ```
    pub fn clear(&mut self) {
        guarded(&mut self.0, |bag| bag.clear());
    }

    /// Returns the number of slots. A slot has room for one value and its count; at most three quarters are used. While a carry is under way, the
    /// slots of the former table aren't counted.
    ///
    /// It is 0 or a power of two from 16. Takes constant time.
    ///
    /// # Examples
    ///
    /// ```
    /// let mut bag = hashbag::HashBag::new();
    /// assert_eq!(bag.slots(), 0);
    /// bag.insert(7);
    /// assert_eq!(bag.slots(), 16);
    /// ```
    pub fn slots(&self) -> usize {
        self.0.slots()
    }

    /// Returns how many slots of the former table wait to be carried into the new one. It is 0 if no carry is under way.
    ///
    /// Takes constant time.
    ///
    /// # Examples
    ///
    /// ```
    /// let bag: hashbag::HashBag<_> = (0..25).collect();
    /// assert_eq!(bag.waiting(), 16);
    /// ```
    pub fn waiting(&self) -> usize {
        self.0.waiting()
    }

    /// Returns how many absent values can be inserted before the bag must grow.
    ///
    /// Takes constant time.
    ///
    /// # Examples
    ///
    /// ```
    /// let bag: hashbag::HashBag<_> = (0..5).collect();
    /// assert_eq!(bag.room(), 7);
    /// ```
    pub fn room(&self) -> usize {
        self.0.room()
    }

    /// Returns the limit, which is the greatest total that the bag may have. It is `usize::MAX` if no other was set.
    ///
    /// Takes constant time.
    ///
    /// # Examples
    ///
    /// ```
    /// assert_eq!(hashbag::HashBag::<u8>::new().limit(), usize::MAX);
    /// ```
    pub fn limit(&self) -> usize {
        self.0.limit()
    }

    /// Sets the limit to `most`.
    ///
    /// Takes constant time.
    ///
    /// # Errors
    ///
    /// Returns [`BagError::BelowTotal`] if `most` is less than the total. The limit is then unchanged.
    ///
    /// # Examples
    ///
    /// ```
    /// use hashbag::{BagError, HashBag};
    ///
    /// let mut bag: HashBag<_> = [5, 5].into_iter().collect();
    /// assert_eq!(bag.set_limit(1), Err(BagError::BelowTotal));
    /// assert_eq!(bag.set_limit(2), Ok(()));
    /// assert_eq!(bag.try_insert(6), Err(BagError::TooMany));
    /// ```
    pub fn set_limit(&mut self, most: usize) -> Result<(), BagError> {
        Ok(self.0.set_limit(most)?)
    }
}

impl<T: Eq + Hash, S: BuildHasher> HashBag<T, S> {
    /// Returns an empty bag that hashes its values with `hash_builder`.
    ///
    /// Doesn't allocate. If other people choose the values, `hash_builder` should have random keys, as `RandomState` has: else they can choose many
    /// values with one hash, and each insertion takes time proportional to their number.
    ///
    /// # Examples
    ///
    /// ```
    /// let bag: hashbag::HashBag<u32, _> = hashbag::HashBag::with_hasher(std::hash::RandomState::new());
    /// assert!(bag.is_empty());
    /// ```
    #[inline]
    pub fn with_hasher(hash_builder: S) -> HashBag<T, S> {
        HashBag(proved::HashBag::with_hasher(Global, hash_builder))
    }

    /// Returns an empty bag that hashes its values with `hash_builder`, and whose total may be at most `most`.
    ///
    /// Doesn't allocate.
    ///
    /// # Examples
    ///
    /// ```
    /// use hashbag::{BagError, HashBag};
    ///
    /// let mut hall = HashBag::with_limit(2, std::hash::RandomState::new());
    /// hall.insert_many("guest", 2);
    /// assert_eq!(hall.try_insert("guest"), Err(BagError::TooMany));
    /// ```
    pub fn with_limit(most: usize, hash_builder: S) -> HashBag<T, S> {
        HashBag(proved::HashBag::with_limit(Global, hash_builder, most))
    }

    /// Returns an empty bag with room for at least `capacity` distinct values, which it hashes with `hash_builder`.
    ///
    /// Allocates once, and not at all if `capacity` is 0.
    ///
    /// # Panics
    ///
    /// Panics if the allocation fails.
    ///
    /// # Examples
    ///
    /// ```
    /// let bag: hashbag::HashBag<u32, _> = hashbag::HashBag::with_capacity_and_hasher(20, std::hash::RandomState::new());
    /// assert_eq!(bag.slots(), 32);
    /// ```
    #[inline]
    #[track_caller]
    pub fn with_capacity_and_hasher(capacity: usize, hash_builder: S) -> HashBag<T, S> {
        ok(HashBag::try_with_capacity_and_hasher(capacity, hash_builder))
    }

    /// Does the same as [`HashBag::with_capacity_and_hasher`], but returns an error instead of panicking.
    ///
    /// # Errors
    ///
    /// Returns [`BagError::Memory`] if the allocation fails.
    ///
    /// # Examples
    ///
    /// ```
    /// use hashbag::{BagError, HashBag};
    ///
    /// let state = std::hash::RandomState::new();
    /// assert_eq!(HashBag::<u32, _>::try_with_capacity_and_hasher(usize::MAX, state).err(), Some(BagError::Memory));
    /// ```
    pub fn try_with_capacity_and_hasher(capacity: usize, hash_builder: S) -> Result<HashBag<T, S>, BagError> {
        Ok(HashBag(proved::HashBag::with_capacity_and_hasher(Global, capacity, hash_builder)?))
    }

    /// Returns a reference to the state that hashes the values.
    ///
    /// Takes constant time.
    ///
    /// # Examples
    ///
    /// ```
    /// let state = std::hash::RandomState::new();
    /// let bag: hashbag::HashBag<u32, _> = hashbag::HashBag::with_hasher(state);
    /// let _: &std::hash::RandomState = bag.hasher();
    /// ```
    #[inline]
    pub fn hasher(&self) -> &S {
        self.0.hasher()
    }

    /// Makes room for at least `additional` more distinct values.
    ///
    /// Does nothing if there is room. Else it allocates a table once, moves all values into it, hashes each once, and frees the former tables.
    ///
    /// # Panics
    ///
    /// Panics if the allocation fails. The bag is then unchanged.
    ///
    /// # Examples
    ///
    /// ```
    /// let mut bag: hashbag::HashBag<u32> = hashbag::HashBag::new();
    /// bag.reserve(10);
    /// assert!(bag.room() >= 10);
    /// ```
    #[inline]
    #[track_caller]
    pub fn reserve(&mut self, additional: usize) {
        ok(self.try_reserve(additional));
    }

    /// Does the same as [`HashBag::reserve`], but returns an error instead of panicking.
    ///
    /// # Errors
    ///
    /// Returns [`BagError::Memory`] if the allocation fails. The bag is then unchanged.
    ///
    /// # Examples
    ///
    /// ```
    /// use hashbag::{BagError, HashBag};
    ///
    /// let mut bag: HashBag<u32> = HashBag::new();
    /// assert_eq!(bag.try_reserve(usize::MAX), Err(BagError::Memory));
    /// ```
    pub fn try_reserve(&mut self, additional: usize) -> Result<(), BagError> {
        Ok(self.0.reserve(additional)?)
    }

    /// Frees slots that the values don't need.
    ///
    /// Does nothing if no smaller table has room for all values. Else it allocates that table, moves all values into it, hashes each once, and frees
    /// the former tables. An empty bag allocates nothing and keeps no slots.
    ///
    /// # Panics
    ///
    /// Panics if the allocation of the smaller table fails. The bag is then unchanged.
    ///
    /// # Examples
    ///
    /// ```
    /// let mut bag: hashbag::HashBag<u32> = hashbag::HashBag::with_capacity(100);
    /// bag.insert(5);
    /// bag.shrink_to_fit();
    /// assert_eq!(bag.slots(), 16);
    /// ```
    #[inline]
    #[track_caller]
    pub fn shrink_to_fit(&mut self) {
        ok(self.try_shrink_to_fit());
    }

    /// Does the same as [`HashBag::shrink_to_fit`], but returns an error instead of panicking.
    ///
    /// # Errors
    ///
    /// Returns [`BagError::Memory`] if the allocation of the smaller table fails. The bag is then unchanged.
    ///
    /// # Examples
    ///
    /// ```
    /// let mut bag: hashbag::HashBag<u32> = hashbag::HashBag::with_capacity(100);
    /// assert_eq!(bag.try_shrink_to_fit(), Ok(()));
    /// assert_eq!(bag.slots(), 0);
    /// ```
    pub fn try_shrink_to_fit(&mut self) -> Result<(), BagError> {
        Ok(self.0.shrink_to_fit()?)
    }

    /// Carries all waiting slots into the new table, and frees the former one. A look-up is faster afterwards, since it probes one table alone.
    ///
    /// Hashes each waiting value once. Doesn't allocate. Does nothing if no slot waits.
    ///
    /// # Examples
    ///
    /// ```
    /// let mut bag: hashbag::HashBag<_> = (0..25).collect();
    /// bag.finish_carry();
    /// assert_eq!(bag.waiting(), 0);
    /// ```
    pub fn finish_carry(&mut self) {
        self.0.finish_carry();
    }

    /// Returns the count of a value, or 0 if it is absent. The value may be given in any borrowed form, with the same `Hash` and `Eq` as the value
    /// itself.
    ///
    /// Hashes `value` once. Doesn't allocate.
    ///
    /// # Examples
    ///
    /// ```
    /// let bag: hashbag::HashBag<String> = ["a", "b", "a"].map(String::from).into_iter().collect();
    /// assert_eq!(bag.contains("a"), 2);
    /// assert_eq!(bag.contains("c"), 0);
    /// ```
    #[inline(always)]
    pub fn contains<Q>(&self, value: &Q) -> usize
    where
        T: Borrow<Q>,
        Q: ?Sized + Hash + Eq,
    {
        self.0.contains(value)
    }

    /// Returns a reference to the stored instance of a value, and its count, or `None` if it is absent.
    ///
    /// Hashes `value` once. Doesn't allocate.
    ///
    /// # Examples
    ///
    /// ```
    /// let bag: hashbag::HashBag<_> = [5, 5].into_iter().collect();
    /// assert_eq!(bag.get(&5), Some((&5, 2)));
    /// assert_eq!(bag.get(&6), None);
    /// ```
    #[inline(always)]
    pub fn get<Q>(&self, value: &Q) -> Option<(&T, usize)>
    where
        T: Borrow<Q>,
        Q: ?Sized + Hash + Eq,
    {
        self.0.get(value)
    }

    /// Returns the [`Entry`] of a value, through which its count can be changed or the value inserted.
    ///
    /// This call itself only stores the value and takes constant time.
    ///
    /// # Examples
    ///
    /// ```
    /// let mut bag = hashbag::HashBag::new();
    /// for word in ["the", "cat", "the"] {
    ///     bag.entry(word).and_modify(|count| *count += 1).or_insert();
    /// }
    /// assert_eq!(bag.contains("the"), 2);
    /// ```
    #[inline]
    pub fn entry(&mut self, value: T) -> Entry<'_, T, S> {
        Entry { bag: &mut self.0, value }
    }

    /// Inserts one occurrence of a value, and returns the count that it had before. If the value is present, the stored instance stays, and `value`
    /// is dropped.
    ///
    /// Hashes the value once. If the value is absent, up to 16 waiting slots are carried, and their values are hashed too. Allocates only if the
    /// value is absent and [`room`](HashBag::room) is 0.
    ///
    /// # Panics
    ///
    /// Panics if the total would pass the limit, or if an allocation fails. The bag is then unchanged, and `value` is dropped.
    ///
    /// # Examples
    ///
    /// ```
    /// let mut bag = hashbag::HashBag::new();
    /// assert_eq!(bag.insert(5), 0);
    /// assert_eq!(bag.insert(5), 1);
    /// ```
    #[inline(always)]
    #[track_caller]
    pub fn insert(&mut self, value: T) -> usize {
        ok(self.try_insert_many(value, 1))
    }

    /// Does the same as [`HashBag::insert`], but returns an error instead of panicking.
    ///
    /// # Errors
    ///
    /// Returns [`BagError::TooMany`] if the total would pass the limit, and else [`BagError::Memory`] if an allocation fails. The bag is then
    /// unchanged, and `value` is dropped.
    ///
    /// # Examples
    ///
    /// ```
    /// let mut bag = hashbag::HashBag::new();
    /// assert_eq!(bag.try_insert(5), Ok(0));
    /// ```
    #[inline(always)]
    pub fn try_insert(&mut self, value: T) -> Result<usize, BagError> {
        self.try_insert_many(value, 1)
    }

    /// Inserts `count` occurrences of a value, and returns the count that it had before. If the value is present, the stored instance stays, and
    /// `value` is dropped. Inserting 0 occurrences of an absent value changes nothing.
    ///
    /// Hashes the value once. If the value is absent, up to 16 waiting slots are carried, and their values are hashed too. Allocates only if the
    /// value is absent and [`room`](HashBag::room) is 0.
    ///
    /// # Panics
    ///
    /// Panics if the total would pass the limit, or if an allocation fails. The bag is then unchanged, and `value` is dropped.
    ///
    /// # Examples
    ///
    /// ```
    /// let mut bag = hashbag::HashBag::new();
    /// assert_eq!(bag.insert_many(5, 2), 0);
    /// assert_eq!(bag.insert_many(5, 0), 2);
    /// ```
    #[inline(always)]
    #[track_caller]
    pub fn insert_many(&mut self, value: T, count: usize) -> usize {
        ok(self.try_insert_many(value, count))
    }

    /// Does the same as [`HashBag::insert_many`], but returns an error instead of panicking.
    ///
    /// # Errors
    ///
    /// Returns [`BagError::TooMany`] if the total would pass the limit, and else [`BagError::Memory`] if an allocation fails. The bag is then
    /// unchanged, and `value` is dropped.
    ///
    /// # Examples
    ///
    /// ```
    /// use hashbag::{BagError, HashBag};
    ///
    /// let mut bag = HashBag::new();
    /// bag.insert(5);
    /// assert_eq!(bag.try_insert_many(5, usize::MAX), Err(BagError::TooMany));
    /// assert_eq!(bag.len(), 1);
    /// ```
    #[inline(always)]
    pub fn try_insert_many(&mut self, value: T, count: usize) -> Result<usize, BagError> {
        if !mem::needs_drop::<T>() {
            // The given instance isn't dropped, so no code of its own runs once a count was changed.
            return Ok(self.0.insert_many(value, count)?);
        }
        Ok(guarded(&mut self.0, |bag| bag.insert_many(value, count))?)
    }

    /// Inserts one occurrence of the value that `key` is a borrowed form of, and returns the count that it had before. The value is built, by
    /// [`ToOwned`], only if it is absent.
    ///
    /// Hashes `key` once. If the value is absent, up to 16 waiting slots are carried, and their values are hashed too. Allocates only if the value is
    /// absent and [`room`](HashBag::room) is 0.
    ///
    /// # Panics
    ///
    /// Panics if the total would pass the limit, or if an allocation fails. The bag is then unchanged.
    ///
    /// # Examples
    ///
    /// ```
    /// let mut words: hashbag::HashBag<String> = hashbag::HashBag::new();
    /// assert_eq!(words.insert_key("the"), 0);
    /// assert_eq!(words.insert_key("the"), 1);
    /// ```
    #[inline(always)]
    #[track_caller]
    pub fn insert_key<Q>(&mut self, key: &Q) -> usize
    where
        T: Borrow<Q>,
        Q: ?Sized + Hash + Eq + ToOwned<Owned = T>,
    {
        ok(self.0.insert_key(key))
    }

    /// Sets the count of a value to `count`, and returns the count that it had before. A value whose count is set to 0 is removed and dropped. If the
    /// value is present, the stored instance stays, and `value` is dropped.
    ///
    /// Hashes the value at most twice. If the value is absent, up to 16 waiting slots are carried, and their values are hashed too. Allocates only if
    /// the value is absent and [`room`](HashBag::room) is 0.
    ///
    /// # Panics
    ///
    /// Panics if the total would pass the limit, or if an allocation fails. The bag is then unchanged, and `value` is dropped.
    ///
    /// # Examples
    ///
    /// ```
    /// let mut bag = hashbag::HashBag::new();
    /// assert_eq!(bag.set_count(5, 3), 0);
    /// assert_eq!(bag.set_count(5, 0), 3);
    /// assert!(bag.is_empty());
    /// ```
    #[track_caller]
    pub fn set_count(&mut self, value: T, count: usize) -> usize {
        ok(self.try_set_count(value, count))
    }

    /// Does the same as [`HashBag::set_count`], but returns an error instead of panicking.
    ///
    /// # Errors
    ///
    /// Returns [`BagError::TooMany`] if the total would pass the limit, and else [`BagError::Memory`] if an allocation fails. The bag is then
    /// unchanged, and `value` is dropped.
    ///
    /// # Examples
    ///
    /// ```
    /// let mut bag = hashbag::HashBag::new();
    /// assert_eq!(bag.try_set_count(5, 3), Ok(0));
    /// ```
    pub fn try_set_count(&mut self, value: T, count: usize) -> Result<usize, BagError> {
        Ok(guarded(&mut self.0, |bag| bag.set_count(value, count))?)
    }

    /// Replaces all occurrences of a value by one occurrence of `value` itself, and returns the count that it had before. An absent value is
    /// inserted. The instance that was stored is dropped.
    ///
    /// Hashes the value once. If the value is absent, up to 16 waiting slots are carried, and their values are hashed too. Allocates only if the
    /// value is absent and [`room`](HashBag::room) is 0.
    ///
    /// # Panics
    ///
    /// Panics if the total would pass the limit, or if an allocation fails. The bag is then unchanged, and `value` is dropped.
    ///
    /// # Examples
    ///
    /// ```
    /// let mut bag: hashbag::HashBag<_> = [5, 5].into_iter().collect();
    /// assert_eq!(bag.replace(5), 2);
    /// assert_eq!(bag.contains(&5), 1);
    /// ```
    #[inline]
    #[track_caller]
    pub fn replace(&mut self, value: T) -> usize {
        ok(self.try_replace(value))
    }

    /// Does the same as [`HashBag::replace`], but returns an error instead of panicking.
    ///
    /// # Errors
    ///
    /// Returns [`BagError::TooMany`] if the value is absent and the total is at the limit, and else [`BagError::Memory`] if an allocation fails. The
    /// bag is then unchanged, and `value` is dropped.
    ///
    /// # Examples
    ///
    /// ```
    /// let mut bag = hashbag::HashBag::new();
    /// assert_eq!(bag.try_replace(5), Ok(0));
    /// ```
    pub fn try_replace(&mut self, value: T) -> Result<usize, BagError> {
        Ok(guarded(&mut self.0, |bag| bag.replace(value))?)
    }

    /// Removes one occurrence of a value, and returns the count that it had before, or 0 if it is absent. If it was the last occurrence, the stored
    /// instance is dropped.
    ///
    /// Hashes `value` once. Doesn't allocate.
    ///
    /// # Examples
    ///
    /// ```
    /// let mut bag: hashbag::HashBag<_> = [5, 5].into_iter().collect();
    /// assert_eq!(bag.remove(&5), 2);
    /// assert_eq!(bag.remove(&5), 1);
    /// assert_eq!(bag.remove(&5), 0);
    /// ```
    #[inline]
    pub fn remove<Q>(&mut self, value: &Q) -> usize
    where
        T: Borrow<Q>,
        Q: ?Sized + Hash + Eq,
    {
        guarded(&mut self.0, |bag| bag.remove(value))
    }

    /// Removes `quantity` occurrences of a value, or all if it has fewer, and returns the count that is left. If none is left, the stored instance is
    /// dropped.
    ///
    /// Hashes `value` once. Doesn't allocate.
    ///
    /// # Examples
    ///
    /// ```
    /// let mut bag: hashbag::HashBag<_> = [5, 5, 5].into_iter().collect();
    /// assert_eq!(bag.remove_up_to(&5, 2), 1);
    /// assert_eq!(bag.remove_up_to(&5, 2), 0);
    /// ```
    #[inline]
    pub fn remove_up_to<Q>(&mut self, value: &Q, quantity: usize) -> usize
    where
        T: Borrow<Q>,
        Q: ?Sized + Hash + Eq,
    {
        guarded(&mut self.0, |bag| bag.remove_up_to(value, quantity))
    }

    /// Removes one occurrence of a value, and returns the stored instance in `Ok` if it was the last one.
    ///
    /// Hashes `value` once, or twice if other occurrences are left. Doesn't allocate.
    ///
    /// # Errors
    ///
    /// Returns `Err(Some((instance, count)))` if other occurrences are left: a reference to the stored instance, and the count that it had before.
    /// One occurrence is then removed. Returns `Err(None)` if the value is absent.
    ///
    /// # Examples
    ///
    /// ```
    /// let mut bag: hashbag::HashBag<_> = [5, 5].into_iter().collect();
    /// assert_eq!(bag.try_take(&5), Err(Some((&5, 2))));
    /// assert_eq!(bag.try_take(&5), Ok(5));
    /// assert_eq!(bag.try_take(&5), Err(None));
    /// ```
    #[inline]
    pub fn try_take<Q>(&mut self, value: &Q) -> Result<T, Option<(&T, usize)>>
    where
        T: Borrow<Q>,
        Q: ?Sized + Hash + Eq,
    {
        self.0.try_take(value)
    }

    /// Removes all occurrences of a value, and returns the stored instance and the count that it had, or `None` if it is absent.
    ///
    /// Hashes `value` once. Doesn't allocate.
    ///
    /// # Examples
    ///
    /// ```
    /// let mut bag: hashbag::HashBag<_> = [5, 5].into_iter().collect();
    /// assert_eq!(bag.take_all(&5), Some((5, 2)));
    /// assert_eq!(bag.take_all(&5), None);
    /// ```
    #[inline]
    pub fn take_all<Q>(&mut self, value: &Q) -> Option<(T, usize)>
    where
        T: Borrow<Q>,
        Q: ?Sized + Hash + Eq,
    {
        self.0.take_all(value)
    }

    /// Calls `f` for each distinct value and its count, in arbitrary order, and lowers the count to what `f` returns. A greater number leaves the
    /// count as it is. A value whose count becomes 0 is removed and dropped.
    ///
    /// Takes time proportional to the number of slots. Doesn't hash or allocate.
    ///
    /// # Examples
    ///
    /// ```
    /// let mut bag: hashbag::HashBag<_> = [5, 5, 6].into_iter().collect();
    /// bag.retain(|value, count| if *value == 5 { count - 1 } else { 0 });
    /// assert_eq!(bag.iter().collect::<Vec<_>>(), [&5]);
    /// ```
    pub fn retain<F>(&mut self, f: F)
    where
        F: FnMut(&T, usize) -> usize,
    {
        guarded(&mut self.0, |bag| bag.retain(f));
    }

    /// Returns an iterator over the values that are in either bag, each once, with its count in this bag and its count in `other`. The values of this
    /// bag come first, then those that only `other` has.
    ///
    /// Creating the iterator takes constant time. Each step hashes the values that it looks up, each once. Nothing is allocated.
    ///
    /// # Examples
    ///
    /// ```
    /// let (a, b): (hashbag::HashBag<_>, hashbag::HashBag<_>) = ([5, 5].into_iter().collect(), [6].into_iter().collect());
    /// assert_eq!(a.outer_join(&b).collect::<Vec<_>>(), [(&5, 2, 0), (&6, 0, 1)]);
    /// ```
    pub fn outer_join<'a, OtherS>(&'a self, other: &'a HashBag<T, OtherS>) -> OuterJoin<'a, T, S, OtherS>
    where
        OtherS: BuildHasher,
    {
        OuterJoin(self.0.outer_join(&other.0))
    }

    /// Returns an iterator over the values that this bag has more often than `other`, each with how many more.
    ///
    /// Creating the iterator takes constant time. Each step hashes the values that it looks up, each once. Nothing is allocated.
    ///
    /// # Examples
    ///
    /// ```
    /// let (a, b): (hashbag::HashBag<_>, hashbag::HashBag<_>) = ([5, 5, 5].into_iter().collect(), [5].into_iter().collect());
    /// assert_eq!(a.difference(&b).collect::<Vec<_>>(), [(&5, 2)]);
    /// ```
    pub fn difference<'a, OtherS>(&'a self, other: &'a HashBag<T, OtherS>) -> Difference<'a, T, S, OtherS>
    where
        OtherS: BuildHasher,
    {
        Difference(self.0.difference(&other.0))
    }

    /// Returns an iterator over the values that are in either bag, each with its count in this bag minus its count in `other`. A value with the same
    /// count in both is returned with 0. A difference that doesn't fit an `isize` is returned as `isize::MIN` or `isize::MAX`. The order is that
    /// of [`HashBag::outer_join`].
    ///
    /// Creating the iterator takes constant time. Each step hashes the values that it looks up, each once. Nothing is allocated.
    ///
    /// # Examples
    ///
    /// ```
    /// let (a, b): (hashbag::HashBag<_>, hashbag::HashBag<_>) = ([5].into_iter().collect(), [5, 5, 5].into_iter().collect());
    /// assert_eq!(a.signed_difference(&b).collect::<Vec<_>>(), [(&5, -2)]);
    /// ```
    pub fn signed_difference<'a, OtherS>(&'a self, other: &'a HashBag<T, OtherS>) -> SignedDifference<'a, T, S, OtherS>
    where
        OtherS: BuildHasher,
    {
        SignedDifference(self.0.signed_difference(&other.0))
    }

    /// Returns an iterator over the values of this bag that `other` doesn't have at all, each with its count.
    ///
    /// Creating the iterator takes constant time. Each step hashes the values that it looks up, each once. Nothing is allocated.
    ///
    /// # Examples
    ///
    /// ```
    /// let (a, b): (hashbag::HashBag<_>, hashbag::HashBag<_>) = ([5, 5, 6].into_iter().collect(), [6].into_iter().collect());
    /// assert_eq!(a.not_in(&b).collect::<Vec<_>>(), [(&5, 2)]);
    /// ```
    pub fn not_in<'a, OtherS>(&'a self, other: &'a HashBag<T, OtherS>) -> NotIn<'a, T, S, OtherS>
    where
        OtherS: BuildHasher,
    {
        NotIn(self.0.not_in(&other.0))
    }
}

impl<T: Clone + Hash, S: Clone + BuildHasher> HashBag<T, S> {
    /// Does the same as [`Clone::clone`], but returns an error instead of panicking if the slots can't be allocated.
    ///
    /// Clones each distinct value once, and allocates as many slots as this bag has. It hashes one value under the state and under its clone. If
    /// these hashes differ, it hashes each clone once, and allocates the least table with room. If they are equal, a clone of the state must hash
    /// all values alike, as with the collections of std.
    ///
    /// # Errors
    ///
    /// Returns [`BagError::Memory`] if an allocation of slots fails. The values that were cloned are then dropped.
    ///
    /// # Examples
    ///
    /// ```
    /// let bag: hashbag::HashBag<_> = [5, 5].into_iter().collect();
    /// assert_eq!(bag.try_clone(), Ok(bag.clone()));
    /// ```
    pub fn try_clone(&self) -> Result<HashBag<T, S>, BagError> {
        Ok(HashBag(self.0.copy()?))
    }
}

impl<T: Clone + Hash, S: Clone + BuildHasher> Clone for HashBag<T, S> {
    /// Returns a bag with a clone of each value, with the same counts and the same limit.
    ///
    /// Costs what [`HashBag::try_clone`] costs.
    ///
    /// # Panics
    ///
    /// Panics if an allocation fails. [`HashBag::try_clone`] returns an error instead.
    ///
    /// # Examples
    ///
    /// ```
    /// let bag: hashbag::HashBag<_> = [5, 5].into_iter().collect();
    /// let mut copy = bag.clone();
    /// copy.insert(6);
    /// assert_eq!((bag.len(), copy.len()), (2, 3));
    /// ```
    #[track_caller]
    fn clone(&self) -> Self {
        ok(self.try_clone())
    }
}

/// Implemented for `RandomState` alone, as in the original crate, so that the state of a bag that is printed can be inferred. To print a bag with
/// another state, print [`HashBag::set_iter`] or [`HashBag::iter`].
impl<T: fmt::Debug> fmt::Debug for HashBag<T> {
    /// Writes the occurrences as a set, in arbitrary order.
    ///
    /// # Examples
    ///
    /// ```
    /// let bag: hashbag::HashBag<_> = [5, 5].into_iter().collect();
    /// assert_eq!(format!("{bag:?}"), "{5, 5}");
    /// ```
    fn fmt(&self, f: &mut fmt::Formatter<'_>) -> fmt::Result {
        f.debug_set().entries(self.iter()).finish()
    }
}

impl<T: Eq + Hash, S: BuildHasher + Default> Default for HashBag<T, S> {
    /// Returns an empty bag with the default state. Doesn't allocate.
    ///
    /// # Examples
    ///
    /// ```
    /// let bag: hashbag::HashBag<u32> = Default::default();
    /// assert!(bag.is_empty());
    /// ```
    fn default() -> Self {
        HashBag::with_hasher(S::default())
    }
}

impl<T: Eq + Hash, S: BuildHasher> PartialEq for HashBag<T, S> {
    /// Returns `true` if each value occurs as often in one bag as in the other. Limits and states don't matter.
    ///
    /// Compares the totals first. Then it hashes each distinct value of one bag at most once, and stops at the first that differs. Doesn't allocate.
    ///
    /// # Examples
    ///
    /// ```
    /// let (a, b): (hashbag::HashBag<_>, hashbag::HashBag<_>) = ([5, 6, 5].into_iter().collect(), [5, 5, 6].into_iter().collect());
    /// assert_eq!(a, b);
    /// ```
    fn eq(&self, other: &Self) -> bool {
        self.0 == other.0
    }
}

impl<T: Eq + Hash, S: BuildHasher> Eq for HashBag<T, S> {}

impl<'a, T: 'a + Eq + Hash + Clone, S: BuildHasher> Extend<&'a T> for HashBag<T, S> {
    /// Inserts a clone of each item once. Costs and panics as [`HashBag::insert`]; what came before a panic stays.
    ///
    /// # Examples
    ///
    /// ```
    /// let mut bag: hashbag::HashBag<i32> = hashbag::HashBag::new();
    /// bag.extend(&[5, 5]);
    /// assert_eq!(bag.contains(&5), 2);
    /// ```
    fn extend<I: IntoIterator<Item = &'a T>>(&mut self, iter: I) {
        iter.into_iter().for_each(|value| {
            self.insert(value.clone());
        });
    }
}

impl<'a, T: 'a + Eq + Hash + Clone, S: BuildHasher> Extend<(&'a T, usize)> for HashBag<T, S> {
    /// Inserts a clone of each value as often as the number with it says. Costs and panics as [`HashBag::insert_many`]; what came before a panic
    /// stays.
    ///
    /// # Examples
    ///
    /// ```
    /// let mut bag: hashbag::HashBag<i32> = hashbag::HashBag::new();
    /// bag.extend([(&5, 2)]);
    /// assert_eq!(bag.contains(&5), 2);
    /// ```
    fn extend<I: IntoIterator<Item = (&'a T, usize)>>(&mut self, iter: I) {
        iter.into_iter().for_each(|(value, count)| {
            self.insert_many(value.clone(), count);
        });
    }
}

impl<T: Eq + Hash, S: BuildHasher> Extend<T> for HashBag<T, S> {
    /// Inserts each item once. Costs and panics as [`HashBag::insert`]; what came before a panic stays.
    ///
    /// # Examples
    ///
    /// ```
    /// let mut bag: hashbag::HashBag<i32> = hashbag::HashBag::new();
    /// bag.extend([5, 5]);
    /// assert_eq!(bag.contains(&5), 2);
    /// ```
    fn extend<I: IntoIterator<Item = T>>(&mut self, iter: I) {
        iter.into_iter().for_each(|value| {
            self.insert(value);
        });
    }
}

impl<T: Eq + Hash, S: BuildHasher> Extend<(T, usize)> for HashBag<T, S> {
    /// Inserts each value as often as the number with it says. Costs and panics as [`HashBag::insert_many`]; what came before a panic stays.
    ///
    /// # Examples
    ///
    /// ```
    /// let mut bag: hashbag::HashBag<i32> = hashbag::HashBag::new();
    /// bag.extend([(5, 2), (6, 0)]);
    /// assert_eq!((bag.contains(&5), bag.set_len()), (2, 1));
    /// ```
    fn extend<I: IntoIterator<Item = (T, usize)>>(&mut self, iter: I) {
        iter.into_iter().for_each(|(value, count)| {
            self.insert_many(value, count);
        });
    }
}

impl<T: Eq + Hash, S: BuildHasher + Default> FromIterator<T> for HashBag<T, S> {
    /// Returns a bag with the default state, into which each item was inserted once. Costs and panics as [`HashBag::insert`].
    ///
    /// # Examples
    ///
    /// ```
    /// let bag: hashbag::HashBag<_> = [5, 5].into_iter().collect();
    /// assert_eq!(bag.contains(&5), 2);
    /// ```
    fn from_iter<I: IntoIterator<Item = T>>(iter: I) -> Self {
        let mut bag = HashBag::default();
        bag.extend(iter);
        bag
    }
}

impl<T: Eq + Hash, S: BuildHasher + Default> FromIterator<(T, usize)> for HashBag<T, S> {
    /// Returns a bag with the default state, into which each value was inserted as often as the number with it says. Costs and panics as
    /// [`HashBag::insert_many`].
    ///
    /// # Examples
    ///
    /// ```
    /// let bag: hashbag::HashBag<i32> = [(5, 2)].into_iter().collect();
    /// assert_eq!(bag.contains(&5), 2);
    /// ```
    fn from_iter<I: IntoIterator<Item = (T, usize)>>(iter: I) -> Self {
        let mut bag = HashBag::default();
        bag.extend(iter);
        bag
    }
}

impl<'a, T, S> IntoIterator for &'a HashBag<T, S> {
    type Item = &'a T;
    type IntoIter = Iter<'a, T>;

    /// Returns an iterator over the occurrences, as [`HashBag::iter`] does.
    ///
    /// # Examples
    ///
    /// ```
    /// let bag: hashbag::HashBag<_> = [5, 5].into_iter().collect();
    /// for value in &bag {
    ///     assert_eq!(value, &5);
    /// }
    /// ```
    fn into_iter(self) -> Iter<'a, T> {
        self.iter()
    }
}

impl<T, S> IntoIterator for HashBag<T, S> {
    type Item = (T, usize);
    type IntoIter = IntoIter<T>;

    /// Returns an iterator over the distinct values and their counts, by value, in arbitrary order. Values that aren't read are dropped with the
    /// iterator.
    ///
    /// The call takes constant time. A full run takes time proportional to the number of slots. Nothing is hashed or allocated.
    ///
    /// # Examples
    ///
    /// ```
    /// let bag: hashbag::HashBag<_> = [5, 5].into_iter().collect();
    /// assert_eq!(bag.into_iter().collect::<Vec<_>>(), [(5, 2)]);
    /// ```
    fn into_iter(self) -> IntoIter<T> {
        IntoIter(self.0.into_iter())
    }
}
