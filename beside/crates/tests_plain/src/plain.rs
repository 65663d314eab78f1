//! `PlainBag`: the plain, slow program that a bag is compared with.
ghost use Rattle.std.specs.Prelude.{◌≡◌, ◌+◌, ◌<◌, ◌↔◌, [], length, IsTrue, IfOk, OnOk, OnErr};
ghost use Rattle.hashbag.specs.Occurrences.{greatest_total, others, count, add, less, put, instance};
ghost use Rattle.hashbag.specs.Rows.{insert_row, replace_row, remove_row, remove_up_to_row, try_take_row, take_all_row, entry_set_row, entry_or_row, quota as quota_of, retained, retain_row, count_row, limit_row};
ghost use Rattle.hashbag.specs.Script.{step as step_of, limit_after};
ghost use Rattle.tests_plain.specs.Plain.{holding};

use hashbag::script::{Reply, Step};
use std::alloc::{AllocError, Global};
use std::marker::Model;

/// A bag of values as the plain list of its occurrences, in an order that means nothing, and a limit: the steps don't make the list
/// longer than that.
///
/// It needs no hash and no order of the values, and is slow: most calls read each occurrence. Contracts see a plain bag as that list and
/// that limit.
#[derive(Drop)]
pub struct PlainBag<T: Eq + Copy> {
    items: Vec<T>,
    most: usize,
    // The allocator of a list that is made anew.
    alloc: Global,
}

impl<T: Eq + Copy> Model for PlainBag<T> {
    ghost use Rattle.tests_plain.specs.Plain.{Plain};

    ghost Value = { Plain T };

    ghost view = { λ a. record { items = a.items.items; most = a.most } };
}

// Returns the number of the first value in the list that is equal to this one, 0 if there is none.
fn quota<T: Eq>(list: &[(T, usize)], value: &T) -> usize
    ensures { result ≡ quota_of T.eq list.now value.now }
{
    match list.iter().find(|entry| *value == entry.0) {
        Some(entry) => entry.1,
        None => 0,
    }
}

impl<T: Eq + Copy> PlainBag<T> {
    /// Returns an empty bag whose limit is `usize::MAX`. It doesn't allocate.
    pub fn new(alloc: Global) -> PlainBag<T>
        ensures empty { result.items ≡ [] }
        ensures limit { result.most ≡ greatest_total }
    {
        PlainBag {
            items: Vec::new(alloc),
            most: usize::MAX,
            alloc,
        }
    }

    // Returns whether a list of `len` items and `n` more would be longer than the limit.
    fn passes(&self, len: usize, n: usize) -> bool
        ensures { IsTrue result ↔ (self.now.most < len + n) }
    {
        self.most < len || n > self.most - len
    }

    /// Returns the occurrences, each with its instance, in the list's order.
    pub fn items(&self) -> &[T]
        ensures { result.now ≡ self.now.items }
    {
        &self.items
    }

    /// Returns the number of occurrences: the sum of all counts.
    pub fn len(&self) -> usize
        ensures { result ≡ length self.now.items }
    {
        self.items.len()
    }

    /// Returns whether there are no occurrences.
    pub fn is_empty(&self) -> bool
        ensures { IsTrue result ↔ (self.now.items ≡ []) }
    {
        self.items.is_empty()
    }

    /// Returns the count of a value, 0 if it is absent. It reads each occurrence.
    pub fn count(&self, value: &T) -> usize
        ensures { result ≡ count T.eq value.now self.now.items }
    {
        self.items.iter().filter(|item| *value == **item).count()
    }

    // Returns the stored instance of a value, or `None` if the value is absent.
    fn instance(&self, value: &T) -> Option<T>
        ensures { result ≡ instance T.eq value.now self.now.items }
    {
        self.items.iter().copied().find(|item| *value == *item)
    }

    // Returns the occurrences of all other values, in a list of their own.
    fn others(&self, value: &T) -> Result<Vec<T>, AllocError>
        ensures { IfOk result (λ items. items.items ≡ others T.eq value.now self.now.items) }
    {
        let others = self.items.iter().filter(|item| *value != **item);
        others.copied().collect(self.alloc)
    }

    // Returns all occurrences but `n` of a value, or but all of it if there are fewer, in a list of their own.
    fn fewer(&self, value: &T, n: usize) -> Result<Vec<T>, AllocError>
        ensures { IfOk result (λ items. items.items ≡ less T.eq value.now n self.now.items) }
    {
        let others = self.items.iter().filter(|item| *value != **item);
        let alike = self.items.iter().filter(|item| *value == **item);
        others.chain(alike.skip(n)).copied().collect(self.alloc)
    }

    /// Adds `n` occurrences of a value at the end of the list: of the stored instance, or else of the given value. If an allocation fails,
    /// nothing changes.
    pub fn add(&mut self, value: T, n: usize) -> Result<(), AllocError>
        ensures added { OnOk result (self.new ≡ holding (add T.eq value n self.old.items) self.old) }
        ensures err { OnErr result (self.new ≡ self.old) }
    {
        let instance = self.instance(&value).unwrap_or(value);
        self.items.reserve(n)?;
        self.items.resize(self.items.len() + n, instance)
    }

    /// Removes `n` occurrences of a value, or all of them if there are fewer. The other occurrences of the value move to the end of the
    /// list.
    ///
    /// The list is made anew. If its allocation fails, nothing changes.
    pub fn less(&mut self, value: &T, n: usize) -> Result<(), AllocError>
        ensures taken { OnOk result (self.new ≡ holding (less T.eq value.now n self.old.items) self.old) }
        ensures err { OnErr result (self.new ≡ self.old) }
    {
        self.items = self.fewer(value, n)?;
        Ok(())
    }

    /// Puts a value, `n` times, at the end of the list, in the place of all occurrences that equal it.
    ///
    /// The list is made anew. If its allocation fails, nothing changes.
    pub fn put(&mut self, value: T, n: usize) -> Result<(), AllocError>
        ensures put { OnOk result (self.new ≡ holding (put T.eq value n self.old.items) self.old) }
        ensures err { OnErr result (self.new ≡ self.old) }
    {
        let mut items = self.others(&value)?;
        items.reserve(n)?;
        items.resize(items.len() + n, value)?;
        self.items = items;
        Ok(())
    }

    /// Keeps of each value at most as many as the number of the first value in the list that is equal to it, 0 if there is none.
    ///
    /// The list of occurrences is made anew. If its allocation fails, nothing changes.
    pub fn retain(&mut self, list: &[(T, usize)]) -> Result<(), AllocError>
        ensures kept { OnOk result (self.new ≡ holding (retained T.eq (quota_of T.eq list.now) self.old.items) self.old) }
        ensures err { OnErr result (self.new ≡ self.old) }
    {
        let mut kept = Vec::new(self.alloc);
        let mut rest = self.items.as_slice();
        while let Some((item, later)) = rest.split_first() {
            if later.iter().filter(|other| *item == **other).count() < quota(list, item) {
                kept.push(*item)?;
            }
            rest = later;
        }
        self.items = kept;
        Ok(())
    }

    /// Removes all occurrences. It doesn't allocate.
    pub fn clear(&mut self)
        ensures { self.new ≡ holding [] self.old }
    {
        self.items.clear();
    }

    // What `insert` and `insert_many` do.
    fn insert_row(&mut self, value: T, n: usize) -> Result<Reply<T>, AllocError>
        ensures done { IfOk result (λ reply. (self.new.items, reply) ≡ insert_row T.eq self.old.most value n self.old.items) }
        ensures limit { self.new.most ≡ self.old.most }
        ensures err { OnErr result (self.new ≡ self.old) }
    {
        if self.passes(self.len(), n) {
            return Ok(Reply::TooMany);
        }
        let before = self.count(&value);
        self.add(value, n)?;
        Ok(Reply::Count(before))
    }

    // What `replace` does.
    fn replace_row(&mut self, value: T) -> Result<Reply<T>, AllocError>
        ensures done { IfOk result (λ reply. (self.new.items, reply) ≡ replace_row T.eq self.old.most value self.old.items) }
        ensures limit { self.new.most ≡ self.old.most }
        ensures err { OnErr result (self.new ≡ self.old) }
    {
        let before = self.count(&value);
        if self.passes(self.len().saturating_sub(before), 1) {
            return Ok(Reply::TooMany);
        }
        self.put(value, 1)?;
        Ok(Reply::Count(before))
    }

    // What `remove` does.
    fn remove_row(&mut self, value: &T) -> Result<Reply<T>, AllocError>
        ensures done { IfOk result (λ reply. (self.new.items, reply) ≡ remove_row T.eq value.now self.old.items) }
        ensures limit { self.new.most ≡ self.old.most }
        ensures err { OnErr result (self.new ≡ self.old) }
    {
        let before = self.count(value);
        self.less(value, 1)?;
        Ok(Reply::Count(before))
    }

    // What `remove_up_to` does.
    fn remove_up_to_row(&mut self, value: &T, quantity: usize) -> Result<Reply<T>, AllocError>
        ensures done { IfOk result (λ reply. (self.new.items, reply) ≡ remove_up_to_row T.eq value.now quantity self.old.items) }
        ensures limit { self.new.most ≡ self.old.most }
        ensures err { OnErr result (self.new ≡ self.old) }
    {
        let before = self.count(value);
        self.less(value, quantity)?;
        Ok(Reply::Count(before - quantity.min(before)))
    }

    // What `try_take` does.
    fn try_take_row(&mut self, value: &T) -> Result<Reply<T>, AllocError>
        ensures done { IfOk result (λ reply. (self.new.items, reply) ≡ try_take_row T.eq value.now self.old.items) }
        ensures limit { self.new.most ≡ self.old.most }
        ensures err { OnErr result (self.new ≡ self.old) }
    {
        let instance = self.instance(value).unwrap_or(*value);
        match self.count(value) {
            0 => Ok(Reply::Absent),
            1 => {
                self.less(value, 1)?;
                Ok(Reply::Taken(instance, 1))
            }
            before => {
                self.less(value, 1)?;
                Ok(Reply::Left(before))
            }
        }
    }

    // What `take_all` does.
    fn take_all_row(&mut self, value: &T) -> Result<Reply<T>, AllocError>
        ensures done { IfOk result (λ reply. (self.new.items, reply) ≡ take_all_row T.eq value.now self.old.items) }
        ensures limit { self.new.most ≡ self.old.most }
        ensures err { OnErr result (self.new ≡ self.old) }
    {
        let instance = self.instance(value).unwrap_or(*value);
        let before = self.count(value);
        if before == 0 {
            return Ok(Reply::Absent);
        }
        self.less(value, before)?;
        Ok(Reply::Taken(instance, before))
    }

    // What an entry's `and_modify` does if it sets the count.
    fn entry_set_row(&mut self, value: &T, n: usize) -> Result<Reply<T>, AllocError>
        ensures done { IfOk result (λ reply. (self.new.items, reply) ≡ entry_set_row T.eq self.old.most value.now n self.old.items) }
        ensures limit { self.new.most ≡ self.old.most }
        ensures err { OnErr result (self.new ≡ self.old) }
    {
        let instance = self.instance(value).unwrap_or(*value);
        let before = self.count(value);
        if before == 0 {
            return Ok(Reply::Absent);
        }
        if self.passes(self.len().saturating_sub(before), n) {
            return Ok(Reply::TooMany);
        }
        self.put(instance, n)?;
        Ok(Reply::Done)
    }

    // What an entry's `or_insert_many` does.
    fn entry_or_row(&mut self, value: T, quantity: usize) -> Result<Reply<T>, AllocError>
        ensures done { IfOk result (λ reply. (self.new.items, reply) ≡ entry_or_row T.eq self.old.most value quantity self.old.items) }
        ensures limit { self.new.most ≡ self.old.most }
        ensures err { OnErr result (self.new ≡ self.old) }
    {
        let before = self.count(&value);
        if before > 0 {
            return Ok(Reply::Count(before));
        }
        if self.passes(self.len(), quantity) {
            return Ok(Reply::TooMany);
        }
        self.add(value, quantity)?;
        Ok(Reply::Count(quantity))
    }

    // What `retain` does.
    fn retain_row(&mut self, list: &[(T, usize)]) -> Result<Reply<T>, AllocError>
        ensures done { IfOk result (λ reply. (self.new.items, reply) ≡ retain_row T.eq list.now self.old.items) }
        ensures limit { self.new.most ≡ self.old.most }
        ensures err { OnErr result (self.new ≡ self.old) }
    {
        self.retain(list)?;
        Ok(Reply::Done)
    }

    // What `set_limit` does.
    fn limit_row(&mut self, most: usize) -> Reply<T>
        ensures done { (self.new.items, result) ≡ limit_row T.eq most self.old.items }
        ensures limit { self.new.most ≡ limit_after T.eq self.old.most self.old.items (Step.Limit most) }
    {
        if most < self.len() {
            return Reply::BelowTotal;
        }
        self.most = most;
        Reply::Done
    }

    // What `contains` does.
    fn count_row(&self, value: &T) -> Reply<T>
        ensures { (self.now.items, result) ≡ count_row T.eq value.now self.now.items }
    {
        Reply::Count(self.count(value))
    }

    /// Does one step, and returns its reply. If an allocation fails, nothing changes. The steps about room change nothing here.
    pub fn apply(&mut self, step: Step<T>) -> Result<Reply<T>, AllocError>
        ensures done { IfOk result (λ reply. (self.new.items, reply) ≡ step_of T.eq self.old.most self.old.items step) }
        ensures limit { OnOk result (self.new.most ≡ limit_after T.eq self.old.most self.old.items step) }
        ensures err { OnErr result (self.new ≡ self.old) }
    {
        match step {
            Step::Insert(value) => self.insert_row(value, 1),
            Step::InsertMany(value, n) => self.insert_row(value, n),
            Step::Replace(value) => self.replace_row(value),
            Step::Remove(value) => self.remove_row(&value),
            Step::RemoveUpTo(value, quantity) => self.remove_up_to_row(&value, quantity),
            Step::TryTake(value) => self.try_take_row(&value),
            Step::TakeAll(value) => self.take_all_row(&value),
            Step::EntrySet(value, n) => self.entry_set_row(&value, n),
            Step::EntryOr(value, quantity) => self.entry_or_row(value, quantity),
            Step::Retain(list) => self.retain_row(&list),
            Step::Clear => {
                self.clear();
                Ok(Reply::Done)
            }
            Step::Count(value) => Ok(self.count_row(&value)),
            Step::Reserve(_) | Step::ShrinkToFit => Ok(Reply::Done),
            Step::Limit(most) => Ok(self.limit_row(most)),
        }
    }
}
