//! The functions of a bag that Python calls: methods, and what syntax calls.
use crate::bag::{BagObject, bag_arg};
use crate::bulk::*;
use crate::content::{Content, Sought};
use crate::ffi::*;
use crate::lookup::*;
use crate::object::*;
use crate::two::*;
use crate::walk::{What, walk};
use std::cmp::Reverse;
use std::ffi::c_int;

/// Functions of Python's signatures: `(b)` takes nothing, `(b, x)` one argument, `(b, [args])` a few.
macro_rules! methods {
    ($($(#[$doc:meta])* fn $name:ident $args:tt $body:block)*) => { $( methods!(@ $(#[$doc])* $name $args $body); )* };
    (@ $(#[$doc:meta])* $name:ident ($b:ident) $body:block) => {
        $(#[$doc])*
        pub unsafe extern "C" fn $name(o: Obj, _: Option<Obj>) -> Option<Own> {
            // SAFETY: Python calls the functions of a type's table with an object of that type, which is alive meanwhile.
            let $b: &BagObject = unsafe { o.fields() };
            guarded(|| $body)
        }
    };
    (@ $(#[$doc:meta])* $name:ident ($b:ident, $x:ident) $body:block) => {
        $(#[$doc])*
        pub unsafe extern "C" fn $name(o: Obj, $x: Obj) -> Option<Own> {
            // SAFETY: as above.
            let $b: &BagObject = unsafe { o.fields() };
            guarded(|| $body)
        }
    };
    (@ $(#[$doc:meta])* $name:ident ($b:ident, [$args:ident]) $body:block) => {
        $(#[$doc])*
        pub unsafe extern "C" fn $name(o: Obj, args: *const Obj, n: Size) -> Option<Own> {
            // SAFETY: as above; Python gives `n` arguments, which live during the call.
            let ($b, $args): (&BagObject, &[Obj]) = unsafe { (o.fields(), if n == 0 { &[] } else { std::slice::from_raw_parts(args, n as usize) }) };
            guarded(|| $body)
        }
    };
}

fn key_and_count(args: &[Obj]) -> Res<(Sought, usize)> {
    match args {
        [key] => Ok((Sought::of(*key)?, 1)),
        [key, n] => {
            let n = count_of(*n)?;
            Ok((Sought::of(*key)?, n))
        }
        _ => type_error(c"expected a key, and at most a count"),
    }
}

methods! {
    // ---- one key

    fn m_insert(b, [args]) { key_and_count(args).and_then(|(x, n)| number(insert(b, &x, n)?)) }
    fn m_remove(b, [args]) { key_and_count(args).and_then(|(x, n)| number(remove(b, &x, n)?.saturating_sub(n))) }
    fn m_take(b, key) { number(remove(b, &Sought::of(key)?, usize::MAX)?) }
    fn m_subscript(b, key) { number(count(b, &Sought::of(key)?)?) }

    fn m_get(b, [args]) {
        let ([key] | [key, _]) = args else { return type_error(c"expected a key, and at most a default") };
        match (count(b, &Sought::of(*key)?)?, args.get(1)) {
            (0, Some(other)) => Ok(other.own()),
            (0, None) => Ok(none()),
            (n, _) => number(n),
        }
    }

    /// Removes the key that was inserted last. The pair is made before, since its allocation may run any code, and may fail.
    fn m_popitem(b) {
        // SAFETY: the lock is held.
        let both = made(unsafe { PyTuple_New(2) })?;
        let content = b.look();
        let last = content.row.entries.len().checked_sub(1).and_then(|place| content.row.get(place));
        let last = last.map(|(_, key)| (key, content.count(key)));
        drop(content);
        let Some((key, n)) = last else { return key_error(c"popitem(): the bag is empty") };
        let n = number(n)?;
        let taken = b.change().take(key);
        // SAFETY: the pair is new.
        unsafe {
            PyTuple_SetItem(*both, 0, made(taken)?);
            PyTuple_SetItem(*both, 1, n);
        }
        Ok(both)
    }

    // ---- the whole bag

    fn m_total(b) { number(b.total()) }
    fn m_limit(b) { number(b.limit()) }
    fn m_sizeof(b) { number(size_of::<BagObject>() + 16 + b.bytes()) }
    fn m_set_limit(b, n) { count_of(n).and_then(|n| b.done(|content| content.bag.set_limit(n))) }
    fn m_reserve(b, n) { count_of(n).and_then(|n| b.done(|content| content.reserve(n))) }
    fn m_shrink(b) { b.done(Content::shrink) }
    fn m_clear(b) {
        b.empty();
        Ok(none())
    }

    fn m_most(b, n) {
        let pairs = most(b, count_of(n)?)?;
        list(pairs.len(), pairs.into_iter().map(|(key, n)| pair(key, n)))
    }

    // ---- walks

    fn m_walk(b, what) {
        let n = count_of(what)?;
        let Some(&what) = [What::Keys, What::Counts, What::Pairs].get(n % 4) else { return value_error(c"no such walk") };
        walk(b.object(), what, n > 3)
    }

    // ---- calls in bulk, and on two bags

    fn m_insert_each(b, from) { insert_each(b, from).map(|()| none()) }
    fn m_insert_split(b, [args]) {
        let &[data, separator] = args else { return type_error(c"expected bytes and a number") };
        insert_split(b, data, count_of(separator)? as u8).map(|()| none())
    }
    fn m_remove_each(b, from) { each(from, |item| remove(b, &Sought::of(item)?, 1).map(|_| ())).map(|()| none()) }
    fn m_insert_pairs(b, from) { each_pair(from, |x, n| insert(b, &x, n)).map(|()| none()) }
    fn m_remove_pairs(b, from) { each_pair(from, |x, n| remove(b, &x, n)).map(|()| none()) }
    fn m_insert_dict(b, from) { insert_dict(b, from).map(|()| none()) }
    fn m_merge(b, other) { merge(b, bag_arg(other)?).map(|()| none()) }
    fn m_less(b, other) { less(b, bag_arg(other)?).map(|()| none()) }
    fn m_most_of(b, other) { most_of(b, bag_arg(other)?).map(|()| none()) }
    fn m_within(b, other) { within(b, bag_arg(other)?).map(truth) }
    fn m_keep(b, other) { keep(b, bag_arg(other)?).map(|()| none()) }
}

/// The `n` most common keys with their counts; equal counts in the order of insertion.
fn most(b: &BagObject, n: usize) -> Res<Vec<(Own, usize)>> {
    let content = b.look();
    let (mut found, mut pairs) = (Vec::new(), Vec::new());
    let n = n.min(content.bag.set_len());
    if found.try_reserve_exact(content.bag.set_len()).is_err() || pairs.try_reserve_exact(n).is_err() {
        drop(content);
        return no_memory();
    }
    found.extend(content.bag.set_iter().map(|(key, n)| (Reverse(n), key.place)));
    if n < found.len() {
        found.select_nth_unstable(n);
        found.truncate(n);
    }
    found.sort_unstable();
    pairs.extend(found.into_iter().filter_map(|(n, place)| Some((content.row.get(place as usize)?.0.own(), n.0))));
    Ok(pairs)
}

pub unsafe extern "C" fn length(o: Obj) -> Size {
    // SAFETY: Python gives a bag.
    let b: &BagObject = unsafe { o.fields() };
    b.look().bag.set_len() as Size
}

pub unsafe extern "C" fn iter(o: Obj) -> Option<Own> {
    guarded(|| walk(o, What::Keys, false))
}

pub unsafe extern "C" fn contains(o: Obj, key: Obj) -> c_int {
    // SAFETY: Python gives a bag.
    let b = unsafe { o.fields() };
    guarded_int(|| Ok((count(b, &Sought::of(key)?)? > 0) as c_int))
}

/// `b[x] = n`, and `del b[x]`, which gives no `n`.
pub unsafe extern "C" fn set_subscript(o: Obj, key: Obj, n: Option<Obj>) -> c_int {
    // SAFETY: Python gives a bag.
    let b = unsafe { o.fields() };
    guarded_int(|| {
        let n = n.map_or(Ok(0), count_of)?;
        set(b, &Sought::of(key)?, n).map(|()| 0)
    })
}
