//! References to objects of Python: all that count them up or down is here, and all that goes beyond the letter of the stable ABI.
//!
//! An [`Obj`] is an object that is alive as long as the value is used: the caller of a function that Python calls has a reference, or a bag, or an
//! [`Own`]. An [`Own`] is a reference of its own. Both are used with the interpreter's lock held.
//!
//! # Beyond the letter
//!
//! The stable ABI has functions for what CPython's own macros do in line. Here references are counted in line, and a pair that nobody else has is
//! written in place. By functions a walk of pairs takes 2.4 times as long, and 1.25 times if the pair alone is written in place. Both are done in the
//! versions whose objects are known, 3.10 to 3.13. Other versions, and builds with `--cfg hashbag_by_functions`, use the functions.
use crate::ffi::*;
use std::cell::Cell;
use std::ffi::CStr;
use std::mem;
use std::ops::Deref;
use std::ptr::NonNull;

/// What is read and written with the interpreter's lock held alone. There is one such lock: the module is loaded by the main interpreter only.
pub struct Locked<T>(pub T);

// SAFETY: the interpreter's lock is held by one thread at a time, and every function of this module runs with it.
unsafe impl<T> Sync for Locked<T> {}

impl<T> Deref for Locked<T> {
    type Target = T;

    fn deref(&self) -> &T {
        &self.0
    }
}

/// An object that is alive as long as this is used.
#[derive(Clone, Copy, PartialEq, Eq, Debug)]
#[repr(transparent)]
pub struct Obj(NonNull<PyObject>);

/// A reference. Its drop may run any code of Python.
#[derive(Debug)]
#[repr(transparent)]
pub struct Own(Obj);

/// The bits of a count of references that call for more than an addition. None in 3.10 and 3.11; bit 31 in 3.12 and 3.13, where it marks immortal
/// objects; all of them where the functions count.
static SPECIAL: Locked<Cell<u32>> = Locked(Cell::new(u32::MAX));
/// Where a pair has its first thing.
const PAIR_AT: usize = size_of::<PyObject>() + size_of::<Size>();

impl Obj {
    /// An object of CPython that lives as long as the process.
    pub fn lasting(o: *mut PyObject) -> Obj {
        Obj(NonNull::new(o).expect("a static"))
    }

    #[inline(always)]
    pub fn kind(self) -> Obj {
        // SAFETY: the object is alive, and so has a type.
        unsafe { Obj(NonNull::new_unchecked((*self.0.as_ptr()).kind)) }
    }

    /// Whether it is this object.
    pub fn is(self, other: *const PyObject) -> bool {
        self.0.as_ptr().cast_const() == other
    }

    /// The fields of an object of a type of this module.
    ///
    /// # Safety
    /// The object is of the type whose fields are `V`, or of a subtype.
    #[inline(always)]
    pub unsafe fn fields<'a, V>(self) -> &'a V {
        // SAFETY: the fields begin with the head, as the caller says. They change through cells alone.
        unsafe { self.0.cast().as_ref() }
    }

    /// Where the fields of a new object are to be written.
    pub fn memory<V>(self) -> *mut V {
        self.0.as_ptr().cast()
    }

    /// A reference to it.
    #[inline(always)]
    pub fn own(self) -> Own {
        let head = self.0.as_ptr();
        // SAFETY: the object is alive, and its head is known in the versions for which `SPECIAL` isn't all ones.
        unsafe {
            if (*head).refcnt as u32 & SPECIAL.get() == 0 {
                (*head).refcnt += 1;
            } else if SPECIAL.get() == u32::MAX {
                Py_IncRef(self);
            }
        }
        Own(self)
    }
}

impl Own {
    /// The object, whose reference is to be given back later, by `back`.
    pub fn leak(self) -> Obj {
        let o = self.0;
        mem::forget(self);
        o
    }

    /// # Safety
    /// One reference to the object was leaked, and isn't taken back elsewhere.
    pub unsafe fn back(o: Obj) -> Own {
        Own(o)
    }

    /// Whether this is the only reference. It may say no if that isn't known.
    pub fn is_alone(&self) -> bool {
        // SAFETY: as in `own`.
        unsafe { SPECIAL.get() != u32::MAX && (*self.0.0.as_ptr()).refcnt == 1 }
    }
}

impl Drop for Own {
    #[inline(always)]
    fn drop(&mut self) {
        let head = self.0.0.as_ptr();
        // SAFETY: as in `own`. The last reference is given back by Python's own function.
        unsafe {
            let now = (*head).refcnt;
            if now != 1 && now as u32 & SPECIAL.get() == 0 {
                (*head).refcnt = now - 1;
            } else if now == 1 || SPECIAL.get() == u32::MAX {
                Py_DecRef(self.0);
            }
        }
    }
}

impl Deref for Own {
    type Target = Obj;

    fn deref(&self) -> &Obj {
        &self.0
    }
}

/// Gives a pair two other things, and drops the former ones.
///
/// # Safety
/// Only the caller has the pair, which is a tuple of two: `is_alone` said so, and so a pair is known to have its things there.
#[inline(always)]
pub unsafe fn refill(pair: Obj, key: Own, n: Own) {
    // SAFETY: the caller's word.
    unsafe { drop(mem::replace(&mut *pair.0.as_ptr().byte_add(PAIR_AT).cast::<[Own; 2]>(), [key, n])) }
}

/// Learns the version of Python, once, and whether a pair of these two things has them where it should.
pub fn learn(pair: &Own, two: [Obj; 2]) {
    // SAFETY: the text lives as long as the process.
    let version = unsafe { CStr::from_ptr(Py_GetVersion()) }.to_bytes();
    let special = match version {
        _ if cfg!(hashbag_by_functions) => return,
        [b'3', b'.', b'1', b'0' | b'1', ..] => 0,
        [b'3', b'.', b'1', b'2' | b'3', ..] => 1 << 31,
        _ => return,
    };
    // SAFETY: in these versions a tuple of two is as long.
    if unsafe { *pair.0.0.as_ptr().byte_add(PAIR_AT).cast::<[Obj; 2]>() } == two {
        SPECIAL.set(special);
    }
}
