//! Calls on two bags. Each goes over a list of what one bag had at the start, with a reference to each key, since `==` of keys may run code of
//! Python.
use crate::bag::BagObject;
use crate::content::Sought;
use crate::ffi::*;
use crate::lookup::{count, insert, remove};
use crate::object::*;
use hashbag::BagError;

/// An object, the kept bits of its hash, and a count.
pub struct Held(pub Own, pub u32, pub usize);

impl Held {
    fn sought(&self) -> Sought {
        Sought::hashed(*self.0, self.1)
    }
}

/// The keys of a bag and their counts, in order.
pub fn held(b: &BagObject) -> Res<Vec<Held>> {
    let content = b.look();
    let mut pairs = Vec::new();
    if pairs.try_reserve_exact(content.bag.set_len()).is_ok() {
        let counts = content.row.iter().map(|(at, key)| Held(at.own(), key.hash, content.count(key)));
        pairs.extend(counts);
        return Ok(pairs);
    }
    drop(content);
    no_memory()
}

/// Adds the counts of a bag to another one: all of them, or after an error of memory or limit none.
pub fn merge(into: &BagObject, from: &BagObject) -> Res<()> {
    let (limit, total) = (into.limit(), into.total());
    if from.total() > limit - total {
        return refused(BagError::TooMany);
    }
    if total == 0 {
        let copied = from.look().copied(limit);
        return copied.map(|content| into.exchange(content)).or_else(refused);
    }
    insert_all(into, &held(from)?)
}

/// Inserts each key as often as said: all of them, or after an error of memory or limit none.
fn insert_all(into: &BagObject, pairs: &[Held]) -> Res<()> {
    for (i, it) in pairs.iter().enumerate() {
        if insert(into, &it.sought(), it.2).is_err() {
            undo(into, &pairs[..i]);
            return Err(Raised);
        }
    }
    Ok(())
}

/// Removes what was inserted before an error of memory or limit. Other errors came from code of Python; then what was done stays. The error stays.
#[cold]
fn undo(b: &BagObject, done: &[Held]) {
    // SAFETY: there is an error, which is put back whatever the comparisons raise.
    unsafe {
        let is_ours = BAG_ERROR.get().is_some_and(|error| PyErr_ExceptionMatches(error) != 0);
        if !is_ours && PyErr_ExceptionMatches(PyExc_MemoryError) == 0 {
            return;
        }
        let (mut kind, mut value, mut trace) = (None, None, None);
        PyErr_Fetch(&mut kind, &mut value, &mut trace);
        for it in done {
            if it.2 > 0 && remove(b, &it.sought(), it.2).is_err() {
                break;
            }
        }
        PyErr_Restore(kind, value, trace);
    }
}

/// Lowers counts to those of another bag. All are compared before the first is lowered, and that needs no memory.
pub fn keep(b: &BagObject, other: &BagObject) -> Res<()> {
    let mut pairs = held(b)?;
    for it in &mut pairs {
        it.2 -= it.2.min(count(other, &it.sought())?);
    }
    for it in &pairs {
        remove(b, &it.sought(), it.2)?;
    }
    Ok(())
}

/// Removes the counts of a bag from another one, down to 0.
pub fn less(from: &BagObject, b: &BagObject) -> Res<()> {
    for it in &held(b)? {
        remove(from, &it.sought(), it.2)?;
    }
    Ok(())
}

/// Raises counts to those of another bag: all of them, or after an error of memory or limit none.
pub fn most_of(into: &BagObject, b: &BagObject) -> Res<()> {
    let mut pairs = held(b)?;
    for it in &mut pairs {
        it.2 = it.2.saturating_sub(count(into, &it.sought())?);
    }
    insert_all(into, &pairs)
}

/// Whether the first bag has nothing more often than the second one.
pub fn within(a: &BagObject, b: &BagObject) -> Res<bool> {
    if a.total() > b.total() {
        return Ok(false);
    }
    for it in &held(a)? {
        if count(b, &it.sought())? < it.2 {
            return Ok(false);
        }
    }
    Ok(true)
}
