// Made by bindings/rust/make of crates/hashbag_table/src/walk.rt. Change that, or what `make` reads.
use crate::rattle::prelude::*;
// Walks over a table: its entries one after another, each once.
//
// The entries come in no particular order, as [`crate::made::hashbag_slots::walk`] says. In clauses a walk has the list of the items that are left, and
// `YieldsFirst` says that `next` gives the first of them. `lower` and `upper` are clauses of the trait `Iterator`: the number of items left is
// within both bounds.

pub use crate::made::hashbag_slots::walk::{IntoWalk, Walk};
use std::iter::ExactSizeIterator;

// The entries that were removed from a table, by value. The table is empty from the start. Unread entries are dropped with the walk.
//
// Contracts see the list of the entries that are left as `drain_rest`.
pub struct DrainWalk<'a, T> {
    pub(crate) taken: IntoWalk<T>,
    // The borrow of the table's empty field `lent`. While it lasts, the table can't be used.
    pub(crate) table: &'a mut [usize; 0],
}

impl<'a, T> Iterator for DrainWalk<'a, T> {
    type Item = (T, usize);

    fn next(&mut self) -> Option<(T, usize)> {
        self.taken.next()
    }

    fn size_hint(&self) -> (usize, Option<usize>)
    {
        let len = self.len();
        (len, Some(len))
    }
}

impl<'a, T> ExactSizeIterator for DrainWalk<'a, T> {
    fn len(&self) -> usize {
        self.taken.len()
    }
}

impl<'a, T> DrainWalk<'a, T> {
    // Returns a walk over references to what is left. This walk doesn't advance.
    pub fn rest(&self) -> Walk<'_, T>
    {
        self.taken.rest()
    }
}
