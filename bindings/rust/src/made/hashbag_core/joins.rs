// Made by bindings/rust/make of crates/hashbag_core/src/joins.rt. Change that, or what `make` reads.
use crate::rattle::prelude::*;
// Joins of two bags of the same type of values: the counts of each value in both bags, and how they differ.
//
// The states that hash the values of the two bags may be of different types: a join looks a value up in a bag under that bag's own state.
// A join gives the values in no particular order, but an outer join first gives the values of the first bag. After its end a join gives `None` for
// good.
//
// In clauses `lower` and `upper` are clauses of the trait `Iterator`: the number of items left is within both bounds.

use crate::made::hashbag_core::bag::HashBag;
use crate::made::hashbag_core::iters::SetIter;
use std::hash::{BuildHasher, Hash};
use std::iter::ExactSizeIterator;
use std::marker::PhantomData;

// The values that one bag has more often than another, each with the excess: [`HashBag::difference`].
//
// Contracts see it as the list of what is left.
pub struct Difference<'a, T, S, S2> {
    // The values that weren't looked up yet.
    left: SetIter<'a, T>,
    other: &'a HashBag<T, S2>,
    // The bag whose values these are.
    bag: PhantomData<&'a HashBag<T, S>>,
}

impl<'a, T: Eq + Hash, S: BuildHasher, S2: BuildHasher> Iterator
    for Difference<'a, T, S, S2> {
    type Item = (&'a T, usize);

    fn next(&mut self) -> Option<(&'a T, usize)> {
        while let Some((value, count)) = self.left.next() {
            let others = self.other.contains(value);
            if others < count {
                return Some((value, count - others));
            }
        }
        None
    }

    // Returns 0 and the number of values that weren't looked up yet.
    fn size_hint(&self) -> (usize, Option<usize>)
    {
        (0, Some(self.left.len()))
    }
}

// The values of one bag that another lacks, each with its count: [`HashBag::not_in`].
//
// Contracts see it as the list of what is left.
pub struct NotIn<'a, T, S, S2> {
    // The values that weren't looked up yet.
    left: SetIter<'a, T>,
    other: &'a HashBag<T, S2>,
    // The bag whose values these are.
    bag: PhantomData<&'a HashBag<T, S>>,
}

impl<'a, T: Eq + Hash, S: BuildHasher, S2: BuildHasher> Iterator
    for NotIn<'a, T, S, S2> {
    type Item = (&'a T, usize);

    #[inline(always)]
    fn next(&mut self) -> Option<(&'a T, usize)> {
        while let Some((value, count)) = self.left.next() {
            if self.other.contains(value) == 0 {
                return Some((value, count));
            }
        }
        None
    }

    // Returns 0 and the number of values that weren't looked up yet.
    fn size_hint(&self) -> (usize, Option<usize>)
    {
        (0, Some(self.left.len()))
    }
}

// The values of two bags, each with both counts, the values of the first bag first: [`HashBag::outer_join`].
//
// Contracts see it as the list of what is left.
pub struct OuterJoin<'a, T, S, S2> {
    // The values of the first bag.
    first: SetIter<'a, T>,
    other: &'a HashBag<T, S2>,
    // The values of the second bag that the first lacks.
    second: NotIn<'a, T, S2, S>,
}

impl<'a, T: Eq + Hash, S: BuildHasher, S2: BuildHasher> Iterator
    for OuterJoin<'a, T, S, S2> {
    type Item = (&'a T, usize, usize);

    #[inline(always)]
    fn next(&mut self) -> Option<(&'a T, usize, usize)> {
        if let Some((value, count)) = self.first.next() {
            return Some((value, count, self.other.contains(value)));
        }
        let (value, count) = self.second.next()?;
        Some((value, 0, count))
    }

    // Returns two bounds: how many values of the first bag weren't looked up yet, and how many values of both bags weren't.
    fn size_hint(&self) -> (usize, Option<usize>)
    {
        let first = self.first.len();
        let (_, second) = self.second.size_hint();
        match second {
            Some(second) => (first, first.checked_add(second)),
            None => (first, None),
        }
    }
}

// The values of two bags, each with its count in the first less its count in the second: [`HashBag::signed_difference`].
//
// Contracts see it as the list of what is left.
pub struct SignedDifference<'a, T, S, S2> {
    counts: OuterJoin<'a, T, S, S2>,
}

// Returns the first count less the second, saturated to `isize::MIN` and `isize::MAX`: the number that [`HashBag::signed_difference`] gives
// with a value.
//
// # Examples
//
// ```
// joins::limited_difference(2, 5); // -3
// ```
pub fn limited_difference(first: usize, second: usize) -> isize
{
    let most = isize::MAX as usize;
    if second <= first {
        let more = first - second;
        if more <= most {
            more as isize
        } else {
            isize::MAX
        }
    } else {
        let fewer = second - first;
        if fewer <= most {
            -(fewer as isize)
        } else {
            isize::MIN
        }
    }
}

impl<'a, T: Eq + Hash, S: BuildHasher, S2: BuildHasher> Iterator
    for SignedDifference<'a, T, S, S2> {
    type Item = (&'a T, isize);

    fn next(&mut self) -> Option<(&'a T, isize)> {
        let (value, first, second) = self.counts.next()?;
        Some((value, limited_difference(first, second)))
    }

    // Returns the bounds of the outer join.
    fn size_hint(&self) -> (usize, Option<usize>)
    {
        self.counts.size_hint()
    }
}

impl<T: Eq + Hash, S: BuildHasher> HashBag<T, S> {
    // Gives every value that either bag has, once, with its count in this bag and its count in the other.
    //
    // All values of this bag are given first, as this bag's instances; then the values that only the other bag has, as its instances.
    //
    // # Complexity
    //
    // It doesn't allocate. Each step hashes the values that it looks up, each of them once.
    //
    // # Examples
    //
    // ```
    // let mut ordered = HashBag::new(alloc);
    // ordered.insert_many("apple", 3)?;
    // let mut delivered = HashBag::new(alloc);
    // delivered.insert_many("pear", 2)?;
    // let mut join = ordered.outer_join(&delivered);
    // join.next(); // Some(("apple", 3, 0))
    // join.next(); // Some(("pear", 0, 2))
    // Ok(())
    // ```
    pub fn outer_join<'a, S2: BuildHasher>(
        &'a self,
        other: &'a HashBag<T, S2>,
    ) -> OuterJoin<'a, T, S, S2>
    {
        OuterJoin {
            first: self.set_iter(),
            other,
            second: other.not_in(self),
        }
    }

    // Gives the values that this bag has more often than the other, each once, as this bag's instance, with how many more.
    //
    // # Complexity
    //
    // It doesn't allocate. Each step hashes the values that it looks up, each of them once.
    //
    // # Examples
    //
    // ```
    // let mut ordered = HashBag::new(alloc);
    // ordered.insert_many("apple", 3)?;
    // let mut delivered = HashBag::new(alloc);
    // delivered.insert("apple")?;
    // let mut join = ordered.difference(&delivered);
    // join.next(); // Some(("apple", 2))
    // join.next(); // None
    // Ok(())
    // ```
    pub fn difference<'a, S2: BuildHasher>(
        &'a self,
        other: &'a HashBag<T, S2>,
    ) -> Difference<'a, T, S, S2>
    {
        Difference {
            left: self.set_iter(),
            other,
            bag: PhantomData,
        }
    }

    // Gives every value that either bag has, once, with its count in this bag less its count in the other. The order is that of
    // [`HashBag::outer_join`]. A difference above `isize::MAX` or below `isize::MIN` is given as the bound that it passes.
    //
    // # Complexity
    //
    // It doesn't allocate. Each step hashes the values that it looks up, each of them once.
    //
    // # Examples
    //
    // ```
    // let mut ordered = HashBag::new(alloc);
    // ordered.insert_many("apple", 3)?;
    // let mut delivered = HashBag::new(alloc);
    // delivered.insert_many("apple", 5)?;
    // ordered.signed_difference(&delivered).next(); // Some(("apple", -2))
    // Ok(())
    // ```
    pub fn signed_difference<'a, S2: BuildHasher>(
        &'a self,
        other: &'a HashBag<T, S2>,
    ) -> SignedDifference<'a, T, S, S2>
    {
        SignedDifference {
            counts: self.outer_join(other),
        }
    }

    // Gives the values of this bag that the other lacks, each once, as this bag's instance, with its count.
    //
    // # Complexity
    //
    // It doesn't allocate. Each step hashes the values that it looks up, each of them once.
    //
    // # Examples
    //
    // ```
    // let mut ordered = HashBag::new(alloc);
    // ordered.insert_many("apple", 3)?;
    // let mut delivered = HashBag::new(alloc);
    // delivered.insert("pear")?;
    // let mut join = ordered.not_in(&delivered);
    // join.next(); // Some(("apple", 3))
    // join.next(); // None
    // Ok(())
    // ```
    pub fn not_in<'a, S2: BuildHasher>(
        &'a self,
        other: &'a HashBag<T, S2>,
    ) -> NotIn<'a, T, S, S2>
    {
        NotIn {
            left: self.set_iter(),
            other,
            bag: PhantomData,
        }
    }
}
