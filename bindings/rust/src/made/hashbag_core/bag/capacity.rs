// Made by bindings/rust/make of crates/hashbag_core/src/bag/capacity.rt. Change that, or what `make` reads.
use crate::rattle::prelude::*;
// Room and slots of a bag: how much there is, what is allocated, and what is freed.

use crate::made::hashbag_core::bag::{BagError, HashBag};
use std::hash::{BuildHasher, Hash};

impl<T, S> HashBag<T, S> {
    // Returns how many distinct values the bag can have before it grows: [`HashBag::set_len`] and [`HashBag::room`] together.
    //
    // # Examples
    //
    // ```
    // let mut bag = HashBag::new(alloc);
    // bag.capacity(); // 0
    // bag.insert("apple")?;
    // bag.capacity(); // 12
    // Ok(())
    // ```
    pub fn capacity(&self) -> usize
    {
        self.table.capacity()
    }

    // Returns the number of slots of the newer table, 0 if it has none. A slot has a place for one distinct value with its count. A slot of the
    // newer table is Empty, Live (it holds a value), or Removed (it held one).
    //
    // # Examples
    //
    // ```
    // let mut bag = HashBag::new(alloc);
    // bag.slots(); // 0
    // bag.insert("apple")?;
    // bag.slots(); // 16
    // Ok(())
    // ```
    pub fn slots(&self) -> usize
    {
        self.table.slots()
    }

    // Returns the number of slots of the older table that aren't carried yet, 0 if there is no older table. Each insertion of an absent
    // value carries the next 16 of them.
    //
    // # Examples
    //
    // ```
    // let mut bag = HashBag::new(alloc);
    // for value in 0..25u64 {
    //     bag.insert(value)?;
    // }
    // bag.waiting(); // 16
    // Ok(())
    // ```
    pub fn waiting(&self) -> usize
    {
        self.table.waiting()
    }
}

impl<T: Eq + Hash, S: BuildHasher> HashBag<T, S> {
    // Carries all slots of the older table that aren't carried yet. A look-up then probes one table alone. The occurrences stay,
    // and no room is lost.
    //
    // Otherwise only an insertion of an absent value carries slots. So a bag that is filled once and then only looked up is faster after this call.
    // If no slot waits to be carried, the call does nothing.
    //
    // # Complexity
    //
    // It hashes each waiting value once, frees the older table, and doesn't allocate.
    //
    // # Examples
    //
    // ```
    // let mut bag = HashBag::new(alloc);
    // for value in 0..25u64 {
    //     bag.insert(value)?;
    // }
    // bag.waiting(); // 16
    // bag.finish_carry();
    // bag.waiting(); // 0
    // Ok(())
    // ```
    pub fn finish_carry(&mut self)
    {
        self.table.finish_carry();
    }

}

impl<T, S> HashBag<T, S> {
    // Returns how many absent values can be inserted before the bag grows. None of these insertions allocates slots.
    //
    // # Examples
    //
    // ```
    // let mut bag = HashBag::new(alloc);
    // bag.room(); // 0
    // bag.insert_many("apple", 5)?;
    // bag.room(); // 11
    // Ok(())
    // ```
    pub fn room(&self) -> usize
    {
        self.table.room()
    }
}

impl<T: Eq + Hash, S: BuildHasher> HashBag<T, S> {
    // Makes room for `n` more distinct values: the next `n` insertions of absent values don't allocate slots. The occurrences stay.
    //
    // # Errors
    //
    // `Memory` if an allocation fails, or if there would be more than 3 * 2^57 distinct values. The bag is then unchanged. With enough
    // room before the call it can't fail.
    //
    // # Complexity
    //
    // If there is enough room, it does nothing. Else it allocates the least table of slots that has the room, and is not smaller than the
    // newer one. Every value is moved into that table and hashed once, a waiting one twice. The former tables are freed.
    //
    // # Examples
    //
    // ```
    // let mut bag = HashBag::new(alloc);
    // bag.reserve(20)?;
    // bag.room(); // 24
    // // There is room, so this doesn't allocate.
    // bag.insert("apple")?;
    // Ok(())
    // ```
    pub fn reserve(&mut self, n: usize) -> Result<(), BagError>
    {
        self.table.reserve(n)?;
        Ok(())
    }

    // Frees slots that the bag doesn't need. The occurrences stay, and an empty bag is left with no slots.
    //
    // # Errors
    //
    // `Memory` if the allocation of a smaller table fails. The bag is then unchanged.
    //
    // # Complexity
    //
    // If the least table that has room for the values is smaller than the newer one, it is allocated. Every value is moved into it and
    // hashed once, a waiting one twice, and the former tables are freed. Else the call does nothing. An empty bag allocates nothing.
    //
    // # Examples
    //
    // ```
    // let mut bag = HashBag::with_capacity(alloc, 1_000)?;
    // bag.insert("apple")?;
    // bag.slots(); // 2048
    // bag.shrink_to_fit()?;
    // bag.slots(); // 16
    // Ok(())
    // ```
    pub fn shrink_to_fit(&mut self) -> Result<(), BagError>
    {
        self.table.shrink_to_fit()?;
        // Only for the proof: it uses the clauses `waiting`, `smaller` and `freed` of `Table::waiting`.
        let _waiting = self.table.waiting();
        Ok(())
    }
}
