// Made by bindings/rust/make of crates/hashbag_table/src/table/keys.rt. Change that, or what `make` reads.
use crate::rattle::prelude::*;
// Additions by keys: by what names a value, as a text names a `String`.

use crate::made::hashbag_table::key::{Key, ToValue};
use crate::made::hashbag_table::table::{Spot, Table};
use crate::made::hashbag_slots::slots::{Probed, Slot};
use crate::rattle::AllocError;
use std::hash::{BuildHasher, Hash};

impl<T: Eq + Hash, S: BuildHasher> Table<T, S> {
    // The slow path of `add_key`, if the newer table doesn't have a value that the key names. `first` is what a probe of that table showed.
    #[inline(never)]
    fn add_key_slow<Q: ToValue<T>>(
        &mut self,
        hash: u64,
        key: Q,
        n: usize,
        first: Probed,
    ) -> Result<usize, AllocError>
    {
        self.show_invariant();
        if let Some(spot) = self.spot_after_probe(hash, key, first) {
            let before = self.raise_spot(spot, n);
            return Ok(before);
        }
        let value = key.to_value(self.alloc)?;
        self.insert_probed(hash, value, n, first)?;
        Ok(0)
    }

    // Adds `n` to the count of the value that a key names and returns the count before, 0 if the value was absent. If the value is
    // present, the stored instance stays. If it is absent, it is built from the key and inserted.
    //
    // # Errors
    //
    // `AllocError` if the value is absent, and an allocation for it or for slots fails. The table is then unchanged.
    //
    // # Complexity
    //
    // It hashes the key once, and each value that it carries. A present value allocates nothing.
    #[inline(always)]
    pub fn add_key<Q: ToValue<T>>(&mut self, key: Q, n: usize) -> Result<usize, AllocError>
    {
        let hash = self.hash(key);
        let first = self.probe_path(hash, key);
        if let Probed::Found(place) = first {
            let before = self.raise_spot(Spot::Newer(place), n);
            return Ok(before);
        }
        self.add_key_slow(hash, key, n, first)
    }
}
