//! The order of insertion: a row of the objects of a bag, as they came, with a reference to each. A key's number is its object's place here.
use crate::key::Key;
use crate::object::{Obj, Own};
use hashbag::BagError;

/// An object in the row with the kept bits of its hash, or a gap where one was removed. Twelve bytes.
#[derive(Clone, Copy)]
#[repr(C, packed(4))]
pub struct Entry {
    pub at: Option<Obj>,
    pub hash: u32,
}

/// The row. Its last entry is no gap, and at most as many entries are gaps as there are keys, and 32.
#[derive(Default)]
pub struct Row {
    pub entries: Vec<Entry>,
    /// All entries before this one are gaps.
    first: usize,
}

impl Row {
    /// The object at a place, with its key.
    #[inline(always)]
    pub fn get(&self, place: usize) -> Option<(Obj, Key)> {
        let entry = *self.entries.get(place)?;
        Some((entry.at?, Key { hash: entry.hash, place: place as u32 }))
    }

    /// All objects with their keys, in order.
    pub fn iter(&self) -> impl Iterator<Item = (Obj, Key)> + '_ {
        (0..self.entries.len()).filter_map(|place| self.get(place))
    }

    /// The place of the first object. Gaps that it passed aren't looked at again.
    pub fn first(&mut self) -> usize {
        while self.first < self.entries.len() && self.get(self.first).is_none() {
            self.first += 1;
        }
        self.first
    }

    /// Makes room for one more object, writes it behind the last entry, and returns its place there. It is no entry before `push`.
    #[inline(always)]
    pub fn offer(&mut self, at: Obj, hash: u32) -> Result<u32, BagError> {
        let place = self.entries.len() as u32;
        if self.entries.len() == self.entries.capacity() {
            self.reserve(1)?;
        }
        if let Some(spare) = self.entries.spare_capacity_mut().first_mut() {
            spare.write(Entry { at: Some(at), hash });
        }
        Ok(place)
    }

    /// Makes room for more objects, at least a quarter as many again.
    #[inline(never)]
    pub fn reserve(&mut self, more: usize) -> Result<(), BagError> {
        let len = self.entries.len();
        if more > (u32::MAX - 1) as usize - len {
            return Err(BagError::Memory); // places have 32 bits
        }
        if self.entries.capacity() - len >= more {
            return Ok(());
        }
        let ample = more.max(len / 4 + 8);
        self.entries.try_reserve_exact(ample).or_else(|_| self.entries.try_reserve_exact(more)).map_err(|_| BagError::Memory)
    }

    /// Appends an object, for which room was made before.
    pub fn push(&mut self, at: Obj, hash: u32) {
        self.entries.push(Entry { at: Some(at.own().leak()), hash });
    }

    /// Makes a gap. Returns the reference that was there, and whether the row is to be packed, since most of it are gaps.
    pub fn remove(&mut self, place: u32, keys_left: usize) -> (Option<Own>, bool) {
        let entry = &mut self.entries[place as usize];
        let at = entry.at;
        entry.at = None;
        while self.entries.last().is_some_and(|e| { e.at }.is_none()) {
            self.entries.pop();
        }
        self.first = self.first.min(self.entries.len());
        // SAFETY: the entry had a reference, and has it no more.
        (at.map(|at| unsafe { Own::back(at) }), self.entries.len() > 2 * keys_left + 32)
    }

    /// Forgets the entries from a place on, which were moved, so there are no gaps.
    pub fn truncate(&mut self, len: usize) {
        self.entries.truncate(len);
        self.first = 0;
    }

    /// A copy, with a reference to each object.
    pub fn copied(&self) -> Result<Row, BagError> {
        let mut entries = Vec::new();
        entries.try_reserve_exact(self.entries.len()).map_err(|_| BagError::Memory)?;
        entries.extend_from_slice(&self.entries);
        for (at, _) in self.iter() {
            at.own().leak();
        }
        Ok(Row { entries, first: self.first })
    }
}

impl Drop for Row {
    fn drop(&mut self) {
        for entry in &self.entries {
            if let Some(at) = entry.at {
                // SAFETY: each entry has a reference, and the row is gone.
                drop(unsafe { Own::back(at) });
            }
        }
    }
}
