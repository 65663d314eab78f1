//! Iterators over two bags, returned by [`HashBag::outer_join`], [`difference`](HashBag::difference),
//! [`signed_difference`](HashBag::signed_difference) and [`not_in`](HashBag::not_in).
//!
//! The types have a module of their own, so that `use hashbag::*` doesn't take names such as `Difference` from `std::collections::hash_set`.
#[cfg(doc)]
use crate::HashBag;
use crate::made::hashbag_core::joins as proved;
use std::fmt;
use std::hash::{BuildHasher, Hash};
use std::iter::FusedIterator;

macro_rules! join {
    ($(#[$doc:meta])* $name:ident, $item:ty) => {
        $(#[$doc])*
        pub struct $name<'a, T, S, OtherS>(pub(crate) proved::$name<'a, T, S, OtherS>);

        impl<'a, T: Eq + Hash, S: BuildHasher, OtherS: BuildHasher> Iterator for $name<'a, T, S, OtherS> {
            type Item = $item;

            #[inline(always)]
            fn next(&mut self) -> Option<$item> {
                self.0.next()
            }

            fn size_hint(&self) -> (usize, Option<usize>) {
                self.0.size_hint()
            }
        }

        impl<T: Eq + Hash, S: BuildHasher, OtherS: BuildHasher> FusedIterator for $name<'_, T, S, OtherS> {}

        impl<T, S, OtherS> fmt::Debug for $name<'_, T, S, OtherS> {
            fn fmt(&self, f: &mut fmt::Formatter<'_>) -> fmt::Result {
                f.debug_struct(stringify!($name)).finish_non_exhaustive()
            }
        }
    };
}

join! {
    /// An iterator over the values that are in either of two bags, with both counts, returned by [`HashBag::outer_join`].
    ///
    /// # Examples
    ///
    /// ```
    /// use hashbag::{HashBag, join::OuterJoin};
    ///
    /// fn totals<T: Eq + std::hash::Hash, S: std::hash::BuildHasher>(join: OuterJoin<'_, T, S, S>) -> (usize, usize) {
    ///     join.fold((0, 0), |sum, (_, here, there)| (sum.0 + here, sum.1 + there))
    /// }
    ///
    /// let (a, b): (HashBag<_>, HashBag<_>) = ([5, 5].into_iter().collect(), [6].into_iter().collect());
    /// assert_eq!(totals(a.outer_join(&b)), (2, 1));
    /// ```
    OuterJoin, (&'a T, usize, usize)
}
join! {
    /// An iterator over the values that one bag has more often than another, with how many more, returned by [`HashBag::difference`].
    ///
    /// # Examples
    ///
    /// ```
    /// use hashbag::{HashBag, join::Difference};
    ///
    /// let (a, b): (HashBag<_>, HashBag<_>) = ([5, 5].into_iter().collect(), [5].into_iter().collect());
    /// let mut more: Difference<'_, i32, _, _> = a.difference(&b);
    /// assert_eq!(more.next(), Some((&5, 1)));
    /// ```
    Difference, (&'a T, usize)
}
join! {
    /// An iterator over the values that are in either of two bags, with the difference of their counts, returned by [`HashBag::signed_difference`].
    ///
    /// # Examples
    ///
    /// ```
    /// use hashbag::{HashBag, join::SignedDifference};
    ///
    /// let (a, b): (HashBag<_>, HashBag<_>) = ([5].into_iter().collect(), [5, 5].into_iter().collect());
    /// let mut all: SignedDifference<'_, i32, _, _> = a.signed_difference(&b);
    /// assert_eq!(all.next(), Some((&5, -1)));
    /// ```
    SignedDifference, (&'a T, isize)
}
join! {
    /// An iterator over the values of one bag that another doesn't have, with their counts, returned by [`HashBag::not_in`].
    ///
    /// # Examples
    ///
    /// ```
    /// use hashbag::{HashBag, join::NotIn};
    ///
    /// let (a, b): (HashBag<_>, HashBag<_>) = ([5, 5].into_iter().collect(), [6].into_iter().collect());
    /// let mut only: NotIn<'_, i32, _, _> = a.not_in(&b);
    /// assert_eq!(only.next(), Some((&5, 2)));
    /// ```
    NotIn, (&'a T, usize)
}
