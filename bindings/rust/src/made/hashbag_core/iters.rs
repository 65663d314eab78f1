// Made by bindings/rust/make of crates/hashbag_core/src/iters.rt. Change that, or what `make` reads.
use crate::rattle::prelude::*;
// Walks over a bag: what it holds, one after another.
//
// A walk gives the values in no particular order. It knows how many items are left, and after the last one it gives `None` for good.
//
// In clauses most walks are the list of the items that are left. `YieldsFirst (λ s. s)` says that `next` gives the first item of that list.
// `lower` and `upper` are clauses of the trait `Iterator`: the number of items left is within both bounds.

use crate::made::hashbag_core::bag::HashBag;
use crate::made::hashbag_table::walk::{DrainWalk, IntoWalk, Walk};
use crate::rattle::AllocError;
use std::fmt::{self, Debug, Formatter};
use std::hash::{BuildHasher, Hash};
use std::iter::ExactSizeIterator;

// The occurrences of a bag that is lent: [`HashBag::iter`].
//
// Contracts see it as the list of the occurrences that are left.
pub struct Iter<'a, T> {
    // The entries after the current one.
    walk: Walk<'a, T>,
    // The current value, and how many of its occurrences are left.
    at: Option<(&'a T, usize)>,
    // How many occurrences of all values are left.
    to_come: usize,
}

impl<'a, T> TryClone for Iter<'a, T> {

    // Returns a walk that goes on from the same place. It doesn't allocate and can't fail.
    //
    // # Examples
    //
    // ```
    // let mut bag = HashBag::new(alloc);
    // bag.insert_many("apple", 3)?;
    // let mut walk = bag.iter();
    // walk.next(); // Some("apple")
    // walk.try_clone()?.count(); // 2
    // walk.count(); // 2
    // Ok(())
    // ```
    fn try_clone(&self) -> Result<Iter<'a, T>, AllocError> {
        Ok(Iter {
            walk: self.walk.try_clone()?,
            at: self.at,
            to_come: self.to_come,
        })
    }
}

impl<'a, T> Iterator for Iter<'a, T> {
    type Item = &'a T;

    fn next(&mut self) -> Option<&'a T> {
        if let Some((value, count)) = self.at {
            if count > 0 {
                self.at = Some((value, count - 1));
                self.to_come -= 1;
                return Some(value);
            }
        }
        let (value, count) = self.walk.next()?;
        self.at = Some((value, count - 1));
        self.to_come -= 1;
        Some(value)
    }

    fn size_hint(&self) -> (usize, Option<usize>)
    {
        (self.to_come, Some(self.to_come))
    }
}

impl<'a, T> ExactSizeIterator for Iter<'a, T> {
    fn len(&self) -> usize {
        self.to_come
    }
}

impl<'a, T: Debug> Debug for Iter<'a, T> {
    // Writes the occurrences that are left in the form of a set: `{5, 5, 5}`.
    fn fmt(&self, f: &mut Formatter<'_>) -> fmt::Result {
        f.debug_set().entries(self.try_clone().unwrap()).finish()
    }
}

// The distinct values of a bag that is lent, each with its count: [`HashBag::set_iter`].
//
// Contracts see it as the list of the values that are left, with their counts.
pub struct SetIter<'a, T> {
    walk: Walk<'a, T>,
}

impl<'a, T> TryClone for SetIter<'a, T> {

    // Returns a walk that goes on from the same place. It doesn't allocate and can't fail.
    //
    // # Examples
    //
    // ```
    // let mut bag = HashBag::new(alloc);
    // bag.insert_many("apple", 3)?;
    // let mut walk = bag.set_iter();
    // walk.try_clone()?.next(); // Some(("apple", 3))
    // walk.next(); // Some(("apple", 3))
    // Ok(())
    // ```
    fn try_clone(&self) -> Result<SetIter<'a, T>, AllocError> {
        Ok(SetIter {
            walk: self.walk.try_clone()?,
        })
    }
}

impl<'a, T> Iterator for SetIter<'a, T> {
    type Item = (&'a T, usize);

    #[inline(always)]
    fn next(&mut self) -> Option<(&'a T, usize)> {
        self.walk.next()
    }

    fn size_hint(&self) -> (usize, Option<usize>)
    {
        self.walk.size_hint()
    }
}

impl<'a, T> ExactSizeIterator for SetIter<'a, T> {
    fn len(&self) -> usize {
        self.walk.len()
    }
}

impl<'a, T: Debug> Debug for SetIter<'a, T> {
    // Writes the values that are left, with their counts, as a set of pairs, as `{(5, 3)}`.
    fn fmt(&self, f: &mut Formatter<'_>) -> fmt::Result {
        f.debug_set().entries(self.try_clone().unwrap()).finish()
    }
}

// The distinct values that were removed from a bag, by value, each with its count: [`HashBag::drain`].
//
// Contracts see the list of the values that are left, with their counts, as `drain_rest`.
pub struct Drain<'a, T> {
    drained: DrainWalk<'a, T>,
}

impl<'a, T> Iterator for Drain<'a, T> {
    type Item = (T, usize);

    fn next(&mut self) -> Option<(T, usize)> {
        self.drained.next()
    }

    fn size_hint(&self) -> (usize, Option<usize>)
    {
        self.drained.size_hint()
    }
}

impl<'a, T> ExactSizeIterator for Drain<'a, T> {
    fn len(&self) -> usize {
        self.drained.len()
    }
}

impl<'a, T> Drain<'a, T> {
    // Returns a walk over references to what is left. This walk doesn't advance. Neither this call nor a step of either walk allocates or hashes.
    //
    // # Examples
    //
    // ```
    // let mut bag = HashBag::new(alloc);
    // bag.insert_many("apple", 2)?;
    // let drain = bag.drain();
    // drain.rest().len(); // 1
    // Ok(())
    // ```
    pub fn rest(&self) -> SetIter<'_, T>
    {
        SetIter {
            walk: self.drained.rest(),
        }
    }
}

impl<'a, T: Debug> Debug for Drain<'a, T> {
    // Writes the values that are left, with their counts, as a list of pairs, as `[(5, 3)]`.
    fn fmt(&self, f: &mut Formatter<'_>) -> fmt::Result {
        f.debug_list().entries(self.rest()).finish()
    }
}

// The distinct values of a bag that was used up, by value, each with its count. Values that aren't read are dropped with the walk.
//
// Contracts see it as the list of the values that are left, with their counts.
pub struct IntoIter<T> {
    owned: IntoWalk<T>,
}

impl<T> Iterator for IntoIter<T> {
    type Item = (T, usize);

    #[inline(always)]
    fn next(&mut self) -> Option<(T, usize)> {
        self.owned.next()
    }

    fn size_hint(&self) -> (usize, Option<usize>)
    {
        self.owned.size_hint()
    }
}

impl<T> ExactSizeIterator for IntoIter<T> {
    fn len(&self) -> usize {
        self.owned.len()
    }
}

impl<T> IntoIter<T> {
    // Returns a walk over references to what is left. This walk doesn't advance. Neither this call nor a step of either walk allocates or hashes.
    //
    // # Examples
    //
    // ```
    // let mut bag = HashBag::new(alloc);
    // bag.insert_many("apple", 2)?;
    // let mut walk = bag.into_iter();
    // walk.rest().next(); // Some(("apple", 2))
    // walk.next(); // Some(("apple", 2))
    // Ok(())
    // ```
    pub fn rest(&self) -> SetIter<'_, T>
    {
        SetIter {
            walk: self.owned.rest(),
        }
    }
}

impl<T: Debug> Debug for IntoIter<T> {
    // Writes the values that are left, with their counts, as a list of pairs, as `[(5, 3)]`.
    fn fmt(&self, f: &mut Formatter<'_>) -> fmt::Result {
        f.debug_list().entries(self.rest()).finish()
    }
}

impl<T, S> HashBag<T, S> {
    // Walks over the `len()` occurrences. All occurrences of a value are given, each as the stored instance, before the next value.
    //
    // # Complexity
    //
    // Neither this call nor a step of the walk allocates or hashes.
    //
    // # Examples
    //
    // ```
    // let mut bag = HashBag::new(alloc);
    // bag.insert_many("apple", 2)?;
    // let mut walk = bag.iter();
    // walk.next(); // Some("apple")
    // walk.next(); // Some("apple")
    // walk.next(); // None
    // Ok(())
    // ```
    pub fn iter(&self) -> Iter<'_, T>
    {
        Iter {
            walk: self.table.walk(),
            at: None,
            to_come: self.len,
        }
    }

    // Walks over the distinct values: each stored instance once, with its count. The counts add up to `len()`.
    //
    // # Complexity
    //
    // Neither this call nor a step of the walk allocates or hashes.
    //
    // # Examples
    //
    // ```
    // let mut bag = HashBag::new(alloc);
    // bag.insert_many("apple", 2)?;
    // bag.insert("pear")?;
    // let mut most = 0;
    // for (_, count) in bag.set_iter() {
    //     most = count.max(most);
    // }
    // most; // 2
    // Ok(())
    // ```
    pub fn set_iter(&self) -> SetIter<'_, T>
    {
        SetIter {
            walk: self.table.walk(),
        }
    }

    // Removes everything, and walks over the distinct values: each stored instance once, by value, with its count.
    //
    // The bag is empty at once, has no slots, and keeps its state, however many values are then read. Unread values are dropped with the walk.
    //
    // # Complexity
    //
    // Neither this call nor a step of the walk allocates or hashes.
    //
    // # Examples
    //
    // ```
    // let mut bag = HashBag::new(alloc);
    // bag.insert_many("apple", 2)?;
    // let pairs: Vec<(&str, usize)> = bag.drain().collect(alloc)?;
    // pairs.as_slice(); // [("apple", 2)]
    // bag.is_empty(); // true
    // Ok(())
    // ```
    pub fn drain(&mut self) -> Drain<'_, T>
    {
        self.len = 0;
        Drain {
            drained: self.table.drain(),
        }
    }
}

impl<'a, T, S> IntoIterator for &'a HashBag<T, S> {
    type Item = &'a T;

    type IntoIter = Iter<'a, T>;

    // Walks over the occurrences, as [`HashBag::iter`] does.
    //
    // # Examples
    //
    // ```
    // let mut bag = HashBag::new(alloc);
    // bag.insert_many("apple", 2)?;
    // bag.insert("pear")?;
    // let mut longest = 0;
    // for word in &bag {
    //     longest = word.len().max(longest);
    // }
    // longest; // 5
    // Ok(())
    // ```
    fn into_iter(self) -> Iter<'a, T> {
        self.iter()
    }
}

impl<T, S> IntoIterator for HashBag<T, S> {
    type Item = (T, usize);

    type IntoIter = IntoIter<T>;

    // Turns the bag into a walk over its distinct values: each stored instance once, by value, with its count. Unread values are dropped
    // with the walk.
    //
    // # Complexity
    //
    // Neither this call nor a step of the walk allocates or hashes.
    //
    // # Examples
    //
    // ```
    // let mut first = HashBag::new(alloc);
    // first.insert_many("apple", 2)?;
    // let mut second = HashBag::new(alloc);
    // for (value, count) in first {
    //     second.insert_many(value, count)?;
    // }
    // second.contains(&"apple"); // 2
    // Ok(())
    // ```
    fn into_iter(self) -> IntoIter<T> {
        let HashBag { table, .. } = self;
        IntoIter {
            owned: table.into_walk(),
        }
    }
}

impl<T: Eq + Hash + Debug, S: BuildHasher> Debug for HashBag<T, S> {
    // Writes the occurrences in the form of a set: `{5, 5, 5}`.
    //
    // # Examples
    //
    // ```
    // let mut bag = HashBag::new(alloc);
    // bag.insert_many("apple", 2)?;
    // format!(in alloc; "{bag:?}")?; // {"apple", "apple"}
    // Ok(())
    // ```
    fn fmt(&self, f: &mut Formatter<'_>) -> fmt::Result {
        f.debug_set().entries(self.iter()).finish()
    }
}
