//! The iterators over one bag. By hand: each is the proved one, with the traits that Rust's collections have.
use crate::made::hashbag_core as proved;
use crate::rattle::TryClone;
use std::fmt;
use std::iter::FusedIterator;
use std::panic::{RefUnwindSafe, UnwindSafe};

macro_rules! walk {
    ($(#[$doc:meta])* $name:ident<$($a:lifetime,)? T>, $item:ty) => {
        $(#[$doc])*
        pub struct $name<$($a,)? T>(pub(crate) proved::$name<$($a,)? T>);

        impl<$($a,)? T> Iterator for $name<$($a,)? T> {
            type Item = $item;

            #[inline(always)]
            fn next(&mut self) -> Option<$item> {
                self.0.next()
            }

            #[inline]
            fn size_hint(&self) -> (usize, Option<usize>) {
                self.0.size_hint()
            }

            #[inline]
            fn count(self) -> usize {
                self.len()
            }
        }

        impl<$($a,)? T> ExactSizeIterator for $name<$($a,)? T> {
            #[inline]
            fn len(&self) -> usize {
                self.0.len()
            }
        }

        impl<$($a,)? T> FusedIterator for $name<$($a,)? T> {}

        impl<$($a,)? T: fmt::Debug> fmt::Debug for $name<$($a,)? T> {
            fn fmt(&self, f: &mut fmt::Formatter<'_>) -> fmt::Result {
                fmt::Debug::fmt(&self.0, f)
            }
        }
    };
}

walk! {
    /// An iterator over the occurrences of a bag, returned by [`HashBag::iter`](crate::HashBag::iter).
    ///
    /// It knows its exact length. A clone goes on from the same place. `Debug` writes what is left.
    ///
    /// # Examples
    ///
    /// ```
    /// let bag: hashbag::HashBag<_> = [5, 5].into_iter().collect();
    /// let mut occurrences = bag.iter();
    /// assert_eq!(occurrences.next(), Some(&5));
    /// assert_eq!(occurrences.len(), 1);
    /// ```
    Iter<'a, T>, &'a T
}
walk! {
    /// An iterator over the distinct values of a bag and their counts, returned by [`HashBag::set_iter`](crate::HashBag::set_iter).
    ///
    /// It knows its exact length. A clone goes on from the same place. `Debug` writes what is left.
    ///
    /// # Examples
    ///
    /// ```
    /// let bag: hashbag::HashBag<_> = [5, 5].into_iter().collect();
    /// let mut values = bag.set_iter();
    /// assert_eq!(values.next(), Some((&5, 2)));
    /// assert_eq!(values.len(), 0);
    /// ```
    SetIter<'a, T>, (&'a T, usize)
}
walk! {
    /// An iterator over the values that were removed from a bag and their counts, by value, returned by [`HashBag::drain`](crate::HashBag::drain).
    ///
    /// It knows its exact length. Dropping it drops the values that are left. `Debug` writes what is left.
    ///
    /// # Examples
    ///
    /// ```
    /// let mut bag: hashbag::HashBag<_> = [5, 5].into_iter().collect();
    /// let mut removed = bag.drain();
    /// assert_eq!(removed.next(), Some((5, 2)));
    /// assert_eq!(removed.next(), None);
    /// ```
    Drain<'a, T>, (T, usize)
}
walk! {
    /// An iterator over the values of a consumed bag and their counts, by value, returned by
    /// [`HashBag::into_iter`](crate::HashBag#impl-IntoIterator-for-HashBag<T,+S>).
    ///
    /// It knows its exact length. Dropping it drops the values that are left. `Debug` writes what is left.
    ///
    /// # Examples
    ///
    /// ```
    /// let bag: hashbag::HashBag<_> = [5, 5].into_iter().collect();
    /// let mut values = bag.into_iter();
    /// assert_eq!(values.next(), Some((5, 2)));
    /// assert_eq!(values.next(), None);
    /// ```
    IntoIter<T>, (T, usize)
}

// As std's: a drain lends nothing, so it may be moved, and it is taken for unwind safe as a pointer would be.
impl<T> Unpin for Drain<'_, T> {}

impl<T: RefUnwindSafe> UnwindSafe for Drain<'_, T> {}

impl<T> Clone for Iter<'_, T> {
    fn clone(&self) -> Self {
        Iter(self.0.try_clone().expect("allocates nothing"))
    }
}

impl<T> Clone for SetIter<'_, T> {
    fn clone(&self) -> Self {
        SetIter(self.0.try_clone().expect("allocates nothing"))
    }
}
