//! What a bag of Python has: the proved bag, and beside it the row. No code of Python runs in here, but when a content is dropped.
//!
//! The keys of the bag are those of the row, each under its place.
use crate::key::{Key, SOUGHT, State, aim, has_met, hash_of, simple_kind};
use crate::object::{Obj, Own, Res};
use crate::row::{Entry, Row};
use hashbag::{BagError, HashBag};

pub type Bag = HashBag<Key, State>;

/// An object that is looked up: it, its hash, and whether it is simple.
#[derive(Clone, Copy)]
pub struct Sought {
    pub at: Obj,
    pub hash: u32,
    pub is_simple: bool,
}

impl Sought {
    /// Code of Python may run.
    #[inline(always)]
    pub fn of(at: Obj) -> Res<Sought> {
        Ok(Sought::hashed(at, hash_of(at)?))
    }

    /// An object whose hash is known.
    pub fn hashed(at: Obj, hash: u32) -> Sought {
        Sought { at, hash, is_simple: simple_kind(at).is_some() }
    }
}

pub struct Content {
    pub bag: Bag,
    pub row: Row,
    /// Changes with the set of keys.
    pub version: u64,
    /// Changes with any count.
    pub stamp: u64,
    /// Whether every key is of a simple kind.
    pub is_simple: bool,
}

impl Content {
    pub fn new(limit: usize) -> Content {
        Content { bag: Bag::with_limit(limit, State::default()), row: Row::default(), version: 0, stamp: 0, is_simple: true }
    }

    /// Before each call of the bag that compares keys.
    #[inline(always)]
    fn aim(&self, sought: Option<Obj>) {
        // SAFETY: each key of the bag has its place in the row. Other keys that are compared are `SOUGHT`, of an object that the caller keeps alive,
        // or of the place behind the row where `offer` wrote it. The bag is called before the row changes.
        unsafe { aim(self.row.entries.as_ptr(), sought) }
    }

    /// The key that an object equals, and its count. What `==` of keys can't judge is noted (`key::met`).
    #[inline(always)]
    pub fn find(&self, x: &Sought) -> Option<(Key, usize)> {
        self.aim(Some(x.at));
        self.bag.get(&Key { hash: x.hash, place: SOUGHT }).map(|(key, n)| (*key, n))
    }

    pub fn count(&self, key: Key) -> usize {
        self.aim(None);
        self.bag.contains(&key)
    }

    /// Inserts an object that equals no key, unless `==` of keys says so. Returns the count before. `n` isn't 0.
    #[inline(always)]
    pub fn insert(&mut self, x: &Sought, n: usize) -> Result<usize, BagError> {
        let place = self.row.offer(x.at, x.hash)?;
        self.aim(None);
        let key = Key { hash: x.hash, place };
        let before = self.bag.try_insert_many(key, n)?;
        if before == 0 && has_met() && self.is_simple && x.is_simple {
            self.bag.take_all(&key); // it wasn't known whether they are equal, for want of memory
            return Err(BagError::Memory);
        }
        self.stamp += 1;
        if before == 0 {
            self.row.push(x.at, x.hash);
            self.version += 1;
            self.is_simple &= x.is_simple;
        }
        Ok(before)
    }

    /// Inserts more of a key that is there.
    pub fn raise(&mut self, key: Key, n: usize) -> Result<usize, BagError> {
        self.aim(None);
        self.stamp += 1;
        self.bag.try_insert_many(key, n)
    }

    /// Removes `n` of a key that is there more often.
    pub fn lower(&mut self, key: Key, n: usize) {
        self.aim(None);
        self.stamp += 1;
        self.bag.remove_up_to(&key, n);
    }

    /// Takes a key out. Its reference is the caller's then, and to be dropped once the content isn't borrowed.
    pub fn take(&mut self, key: Key) -> Option<Own> {
        self.aim(None);
        let (stored, _) = self.bag.take_all(&key)?;
        self.version += 1;
        self.stamp += 1;
        let (at, is_sparse) = self.row.remove(stored.place, self.bag.set_len());
        if is_sparse {
            self.pack();
        }
        at
    }

    /// Closes the gaps of the row. Each key gets its new place by `replace`, which needs no memory for a key that is there.
    #[cold]
    fn pack(&mut self) {
        let mut to = 0;
        for from in 0..self.row.entries.len() {
            let Some((_, key)) = self.row.get(from) else { continue };
            if from != to {
                self.row.entries[to] = self.row.entries[from]; // both places have the object now, so the keys are equal
                let key = Key { place: to as u32, ..key };
                self.aim(None);
                let before = self.bag.try_replace(key).unwrap_or(1);
                let _ = self.bag.try_insert_many(key, before - 1);
            }
            to += 1;
        }
        self.row.truncate(to);
    }

    /// Makes the table larger at once by a factor, if nearly all of `seen` items so far were new and many come: a growth by 2 moves each key more
    /// often.
    #[cold]
    #[inline(never)]
    pub fn grow_ahead(&mut self, seen: usize, come: usize) {
        let keys = self.bag.set_len();
        if keys < 1 << 24 && keys - keys / 8 <= seen && seen - seen / 8 <= keys && come > keys {
            // If memory is refused, the next insertion tries with less.
            let _ = self.reserve(come.min(7 * keys));
        }
    }

    pub fn reserve(&mut self, n: usize) -> Result<(), BagError> {
        self.bag.try_reserve(n)?;
        self.row.reserve(n)
    }

    /// Frees memory that isn't needed. Places stay, for walks that are under way.
    pub fn shrink(&mut self) -> Result<(), BagError> {
        self.bag.try_shrink_to_fit()?;
        self.bag.finish_carry();
        self.row.entries.shrink_to_fit();
        Ok(())
    }

    /// A copy, slot by slot, with another limit.
    pub fn copied(&self, limit: usize) -> Result<Content, BagError> {
        let mut bag = self.bag.try_clone()?;
        bag.set_limit(limit)?;
        Ok(Content { bag, row: self.row.copied()?, version: 0, stamp: 0, is_simple: self.is_simple })
    }

    /// The count at each place, and 0 at gaps; nothing if memory is refused.
    pub fn counts(&self) -> Option<Vec<usize>> {
        let mut counts = Vec::new();
        counts.try_reserve_exact(self.row.entries.len()).ok()?;
        counts.resize(self.row.entries.len(), 0);
        for (key, n) in self.bag.set_iter() {
            counts[key.place as usize] = n;
        }
        Some(counts)
    }

    pub fn bytes(&self) -> usize {
        (self.bag.slots() + self.bag.waiting()) * (size_of::<(Key, usize)>() + 1) + self.row.entries.capacity() * size_of::<Entry>()
    }
}
