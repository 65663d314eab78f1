//! Walks over a bag, forwards and backwards, in the order of insertion. A walk is a place in that order and needs no memory but its own. It ends by a
//! `RuntimeError` once the set of keys changed; of a count that changed it gives the new value.
use crate::bag::BagObject;
use crate::content::Content;
use crate::ffi::*;
use crate::key::Key;
use crate::object::*;
use crate::refs::refill;
use std::cell::Cell;
use std::ffi::{c_int, c_void};
use std::ptr::write;

/// A walk that looked up the counts of this part of the keys reads all in one go, in the order of the table, which takes less than look-ups do.
const PART: usize = 32;

#[derive(Clone, Copy, PartialEq, Eq)]
pub enum What {
    Keys,
    Counts,
    Pairs,
}

#[repr(C)]
pub struct Walk {
    head: PyObject,
    /// The bag; nothing at the end.
    of: Cell<Option<Own>>,
    /// The pair that was given last, for use again if nobody else has it.
    pair: Cell<Option<Own>>,
    version: u64,
    what: What,
    is_backwards: bool,
    /// The place of the next key; backwards, the one after it.
    at: Cell<usize>,
    /// How many keys come.
    keys: Cell<usize>,
    /// How many counts were looked up since the bag's stamp was this one, and the counts of all places, if they were read then.
    stamp: Cell<u64>,
    looked_up: Cell<usize>,
    counts: Cell<Vec<usize>>,
}

pub static WALK_TYPE: Locked<Cell<Option<Obj>>> = Locked(Cell::new(None));

/// A new walk. Its allocation may run any code, so the bag is looked at after it.
pub fn walk(of: Obj, what: What, is_backwards: bool) -> Res<Own> {
    let of = of.own();
    let Some(kind) = WALK_TYPE.get() else { return system_error(c"the module isn't loaded") };
    // SAFETY: the new object is of the right size and all zero. Python sees it only when its fields are written; the collector doesn't yet know what
    // it has, which is nothing. `of` is a bag.
    unsafe {
        let o = made(PyType_GenericAlloc(kind, 0))?;
        let w = o.memory::<Walk>();
        let mut content = of.fields::<BagObject>().change();
        write(&raw mut (*w).counts, Cell::new(Vec::new()));
        write(&raw mut (*w).version, content.version);
        write(&raw mut (*w).what, what);
        write(&raw mut (*w).is_backwards, is_backwards);
        (*w).keys.set(content.bag.set_len());
        (*w).at.set(if is_backwards { content.row.entries.len() } else { content.row.first() });
        drop(content);
        (*w).of.set(Some(of));
        Ok(o)
    }
}

/// What a step gives.
enum Step {
    Key(Own, usize),
    Count(usize),
    End,
    Changed,
}

impl Walk {
    /// The bag.
    fn bag(&self) -> Option<&BagObject> {
        // SAFETY: `of` is a bag, and this walk has a reference to it until its end.
        unsafe { (*self.of.as_ptr()).as_ref().map(|of| of.fields()) }
    }

    /// A step forwards to the place behind the last one, if its count is known.
    #[inline(always)]
    fn quick_step(&self, content: &Content) -> Option<Step> {
        if content.version != self.version || self.is_backwards {
            return None;
        }
        let place = self.at.get();
        let n = if self.what == What::Keys { 0 } else { self.known(content, place).filter(|&n| n > 0)? };
        let step = if self.what == What::Counts { Step::Count(n) } else { Step::Key(content.row.get(place)?.0.own(), n) };
        self.at.set(place + 1);
        self.keys.set(self.keys.get() - 1);
        Some(step)
    }

    #[inline(never)]
    fn step(&self, content: &Content) -> Step {
        if content.version != self.version {
            return Step::Changed;
        }
        while self.keys.get() > 0 {
            let at = self.at.get();
            let place = if self.is_backwards { at.wrapping_sub(1) } else { at };
            self.at.set(if self.is_backwards { place } else { place + 1 });
            let Some((at, key)) = content.row.get(place) else { continue };
            self.keys.set(self.keys.get() - 1);
            let n = if self.what == What::Keys { 0 } else { self.count(content, key) };
            return if self.what == What::Counts { Step::Count(n) } else { Step::Key(at.own(), n) };
        }
        Step::End
    }

    /// The count at a place, if all were read and none changed since.
    #[inline(always)]
    fn known(&self, content: &Content, place: usize) -> Option<usize> {
        // SAFETY: the counts aren't borrowed otherwise meanwhile.
        if self.stamp.get() == content.stamp { unsafe { (&*self.counts.as_ptr()).get(place).copied() } } else { None }
    }

    fn count(&self, content: &Content, key: Key) -> usize {
        if let Some(n) = self.known(content, key.place as usize) {
            return n;
        }
        if self.stamp.replace(content.stamp) != content.stamp {
            self.looked_up.set(0);
            self.counts.take();
        }
        self.looked_up.set(self.looked_up.get() + 1);
        if self.looked_up.get() == content.bag.set_len() / PART {
            self.counts.replace(content.counts().unwrap_or_default()); // without memory for them, look-ups go on
        }
        content.count(key)
    }

    /// A pair of a key and its count. The former pair is used again if only the walk has it, as a dict's walk does.
    #[inline(always)]
    fn pair(&self, key: Own, n: usize, is_simple: bool) -> Res<Own> {
        // SAFETY: no code of Python runs while the pair is borrowed: a number's allocation runs none, nor does the end of a number. The former key of
        // the pair is still in the bag, whose keys didn't change. A pair that only the walk has can't be seen elsewhere.
        unsafe {
            let Some(both) = (*self.pair.as_ptr()).as_ref().filter(|both| both.is_alone()) else { return self.fresh_pair(key, n) };
            refill(**both, key, number(n)?);
            // The collector forgets pairs of simple things. If another key comes, it is told again.
            if !is_simple && PyObject_GC_IsTracked(**both) == 0 {
                PyObject_GC_Track(**both);
            }
            Ok(both.own())
        }
    }

    /// A new pair, which the walk keeps too, unless the allocation ended it.
    #[inline(never)]
    fn fresh_pair(&self, key: Own, n: usize) -> Res<Own> {
        let both = pair(key, n)?;
        if self.bag().is_some() {
            drop(self.pair.replace(Some(both.own())));
        }
        Ok(both)
    }

    /// Ends the walk: drops its bag and its pair.
    fn end(&self) {
        drop((self.counts.take(), self.of.take(), self.pair.take()));
    }
}

pub unsafe extern "C" fn next(o: Obj) -> Option<Own> {
    // SAFETY: Python gives a walk.
    let w = unsafe { o.fields::<Walk>() };
    guarded(|| {
        let Some(b) = w.bag() else { return Err(Raised) }; // null without an error: the end
        let content = b.look();
        let (step, is_simple) = (w.quick_step(&content).unwrap_or_else(|| w.step(&content)), content.is_simple);
        drop(content);
        match step {
            Step::Key(key, n) if w.what == What::Pairs => w.pair(key, n, is_simple),
            Step::Key(key, _) => Ok(key),
            Step::Count(n) => number(n),
            Step::Changed => runtime_error(c"the keys of the bag changed during iteration"),
            Step::End => {
                w.end();
                Err(Raised)
            }
        }
    })
}

/// How many steps come, as far as that is known.
pub unsafe extern "C" fn length_hint(o: Obj, _: Option<Obj>) -> Option<Own> {
    // SAFETY: Python gives a walk.
    let w = unsafe { o.fields::<Walk>() };
    guarded(|| {
        let is_known = w.bag().is_some_and(|b| b.look().version == w.version);
        number(if is_known { w.keys.get() } else { 0 })
    })
}

pub unsafe extern "C" fn traverse(o: Obj, visit: visitproc, arg: *mut c_void) -> c_int {
    // SAFETY: Python gives a walk. A visit changes nothing.
    guard(0, || unsafe {
        let w = o.fields::<Walk>();
        let mut r = visit(o.kind(), arg);
        for field in [&w.of, &w.pair] {
            if let (0, Some(it)) = (r, &*field.as_ptr()) {
                r = visit(**it, arg);
            }
        }
        r
    })
}

pub unsafe extern "C" fn clear(o: Obj) -> c_int {
    // SAFETY: Python gives a walk.
    guard((), || unsafe { o.fields::<Walk>() }.end());
    0
}

pub unsafe extern "C" fn itself(o: Obj) -> Option<Own> {
    Some(o.own())
}
