//! Look-ups, and the changes of one key.
//!
//! A simple object is looked up by the bag alone, unless a key of its hash isn't simple. Any other object is compared by Python's `==` with the keys
//! of its hash, while the bag isn't borrowed. Then the answer is a key that is surely in the bag, or that the object is surely absent.
use crate::bag::BagObject;
use crate::content::Sought;
use crate::key::{Key, has_met, met};
use crate::object::*;

/// The key that an object equals, with its count. Nothing of Python has run since the bag was last looked at.
#[inline(always)]
pub fn locate(b: &BagObject, x: &Sought) -> Res<Option<(Key, usize)>> {
    let found = b.look().find(x);
    if found.is_some() || !has_met() {
        return Ok(found);
    }
    let asked = ask(b, x)?;
    Ok(asked.map(|key| (key, b.look().count(key))))
}

/// What the keys that a look-up met show.
enum Shown {
    Equal(Key),
    Absent,
    /// The set of keys changed.
    Changed,
}

/// Finds the key that an object equals by asking Python about those that a look-up met. If the set of keys changes meanwhile, it looks again; so it
/// ends unless `==` puts in one more key of this hash each time.
#[inline(never)]
fn ask(b: &BagObject, x: &Sought) -> Res<Option<Key>> {
    // Keys in whose `==` the set changed, each with a reference, so that no new object gets the address of one. They aren't asked again.
    let mut asked = Vec::new();
    loop {
        match ask_met(b, x, &mut asked)? {
            Shown::Equal(key) => return Ok(Some(key)),
            Shown::Absent => return Ok(None),
            Shown::Changed => {}
        }
        loop {
            let found = b.look().find(x);
            match found {
                Some((key, _)) if asked.is_empty() => return Ok(Some(key)),
                Some(_) => asked.clear(), // this may run code of Python
                None => break,
            }
        }
    }
}

fn ask_met(b: &BagObject, x: &Sought, asked: &mut Vec<Own>) -> Res<Shown> {
    let version = b.look().version;
    let Some(met) = met() else { return no_memory() };
    for &place in &met.0 {
        let held = b.look().row.get(place as usize).map(|(at, key)| (at.own(), key));
        let Some((at, key)) = held.filter(|(at, _)| !asked.iter().any(|it| **it == **at)) else { continue };
        let is_equal = are_equal(*at, x.at)?;
        let is_same = b.look().version == version;
        if is_equal && is_same && asked.is_empty() {
            return Ok(Shown::Equal(key)); // the bag has a reference too, so no code runs
        } else if is_equal {
            asked.clear(); // this may run code of Python, so the key is looked up again
            let found = b.look().find(&Sought { at: *at, ..*x });
            drop(at);
            return Ok(found.map_or(Shown::Changed, |(key, _)| Shown::Equal(key)));
        } else if !is_same {
            if asked.try_reserve(1).is_err() {
                return no_memory();
            }
            asked.push(at);
            return Ok(Shown::Changed);
        }
    }
    asked.clear();
    Ok(if b.look().version == version { Shown::Absent } else { Shown::Changed })
}

#[inline(always)]
pub fn count(b: &BagObject, x: &Sought) -> Res<usize> {
    Ok(locate(b, x)?.map_or(0, |(_, n)| n))
}

/// Inserts `n` occurrences of an object, and returns the count before.
#[inline(always)]
pub fn insert(b: &BagObject, x: &Sought, n: usize) -> Res<usize> {
    let mut content = b.change();
    if content.is_simple && x.is_simple && n > 0 {
        let done = content.insert(x, n);
        drop(content); // an error may run code of Python
        return done.or_else(refused);
    }
    drop(content);
    insert_asked(b, x, n)
}

/// Inserts an object that may equal keys of which Python has to be asked.
fn insert_asked(b: &BagObject, x: &Sought, n: usize) -> Res<usize> {
    if n == 0 {
        return count(b, x);
    }
    let done = match locate(b, x)? {
        Some((key, _)) => b.change().raise(key, n),
        None => b.change().insert(x, n),
    };
    done.or_else(refused)
}

/// Removes up to `n` of a key that is in the bag `before` times.
fn lower(b: &BagObject, key: Key, before: usize, n: usize) {
    if n < before {
        return b.change().lower(key, n);
    }
    let taken = b.change().take(key);
    drop(taken);
}

/// Removes up to `n` occurrences of an object, and returns the count before.
pub fn remove(b: &BagObject, x: &Sought, n: usize) -> Res<usize> {
    let Some((key, before)) = locate(b, x)? else { return Ok(0) };
    lower(b, key, before, n);
    Ok(before)
}

/// Sets the count of an object.
pub fn set(b: &BagObject, x: &Sought, n: usize) -> Res<()> {
    let done = match locate(b, x)? {
        None if n == 0 => return Ok(()),
        None => b.change().insert(x, n),
        Some((key, before)) if n > before => b.change().raise(key, n - before),
        Some((key, before)) => {
            if n < before {
                lower(b, key, before, before - n);
            }
            return Ok(());
        }
    };
    done.map(|_| ()).or_else(refused)
}
