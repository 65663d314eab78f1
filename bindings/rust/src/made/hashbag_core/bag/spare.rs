// Made by bindings/rust/make of crates/hashbag_core/src/bag/spare.rt. Change that, or what `make` reads.
use crate::rattle::prelude::*;
// Spare slots of a bag: allocated ahead, and taken into use later.

use crate::made::hashbag_core::bag::{BagError, HashBag};
use crate::made::hashbag_table::Spare;
use std::hash::{BuildHasher, Hash};

impl<T: Eq + Hash, S: BuildHasher> HashBag<T, S> {

    // Allocates the slots that [`HashBag::reserve`] would build for `n` more distinct values, and leaves them unused.
    //
    // They are the least table, not smaller than the newer one, that has room for the present values and `n` more. A caller that needs the slots
    // later calls [`HashBag::use_spare`], which can't fail. A caller that doesn't need them drops them.
    //
    // # Errors
    //
    // `Memory` if the allocation fails, or if there would be more than 3 * 2^57 distinct values.
    //
    // # Examples
    //
    // ```
    // let mut bag = HashBag::new(alloc);
    // bag.insert("apple")?;
    // let spare = bag.spare(20)?;
    // spare.slots(); // 32
    // bag.slots(); // 16
    // Ok(())
    // ```
    pub fn spare(&self, n: usize) -> Result<Spare<T>, BagError>
    {
        let spare = self.table.spare(n)?;
        Ok(spare)
    }

    // Moves all values into spare slots. The slots that the bag had are freed, and the occurrences stay.
    //
    // The caller ensures that the distinct values have room in the spare slots. A spare from `HashBag::spare(n)` has that room until more than `n`
    // absent values are inserted.
    //
    // # Complexity
    //
    // Every distinct value is moved and hashed once, a waiting one twice. It doesn't allocate.
    //
    // # Examples
    //
    // ```
    // let mut bag = HashBag::new(alloc);
    // bag.insert("apple")?;
    // let spare = bag.spare(20)?;
    // bag.use_spare(spare);
    // bag.room(); // 23
    // Ok(())
    // ```
    pub fn use_spare(&mut self, spare: Spare<T>)
    {
        self.table.use_spare(spare);
    }
}
