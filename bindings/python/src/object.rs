//! Numbers, pairs, errors, and the guard of every function that Python calls.
use crate::ffi::*;
pub use crate::refs::{Locked, Obj, Own};
use hashbag::BagError;
use std::cell::Cell;
use std::ffi::{CStr, c_int};
use std::panic::{AssertUnwindSafe, catch_unwind};

/// An error that Python knows of already.
#[derive(Debug)]
pub struct Raised;
pub type Res<V> = Result<V, Raised>;

/// The result of a function of C, which is null if it raised an error.
pub fn made<V>(o: Option<V>) -> Res<V> {
    o.ok_or(Raised)
}

pub fn none() -> Own {
    Obj::lasting(&raw mut _Py_NoneStruct).own()
}

pub fn truth(b: bool) -> Own {
    Obj::lasting(if b { &raw mut _Py_TrueStruct } else { &raw mut _Py_FalseStruct }).own()
}

/// Whether two objects are equal. Code of Python may run.
pub fn are_equal(a: Obj, b: Obj) -> Res<bool> {
    // SAFETY: both are alive.
    let equal = unsafe { PyObject_RichCompareBool(a, b, Py_EQ) };
    if equal < 0 { Err(Raised) } else { Ok(equal == 1) }
}

// ---- numbers

/// The numbers from 0 to 256, which Python has once each.
static SMALL: Locked<[Cell<Option<Obj>>; 257]> = Locked([const { Cell::new(None) }; 257]);

/// Gets the small numbers, once, and learns of references from the first of them.
pub fn learn() -> Res<()> {
    for (n, small) in SMALL.iter().enumerate() {
        small.set(Some(made(unsigned(n))?.leak()));
    }
    let (one, two) = (number(1)?, number(2)?);
    crate::refs::learn(&pair(one.own(), 2)?, [*one, *two]);
    Ok(())
}

fn unsigned(n: usize) -> Option<Own> {
    // SAFETY: the lock is held.
    unsafe { PyLong_FromUnsignedLongLong(n as u64) }
}

#[inline(always)]
pub fn number(n: usize) -> Res<Own> {
    match SMALL.get(n).and_then(Cell::get) {
        Some(small) => Ok(small.own()),
        None => made(unsigned(n)),
    }
}

/// Reads a count. Of a number that isn't an exact `int`, code of Python may run.
pub fn count_of(n: Obj) -> Res<usize> {
    if n.kind().is(&raw const PyLong_Type) {
        return whole_count_of(n);
    }
    // SAFETY: it is alive.
    whole_count_of(*made(unsafe { PyNumber_Index(n) })?)
}

fn whole_count_of(n: Obj) -> Res<usize> {
    // SAFETY: it is alive, and an `int`.
    unsafe {
        let value = PyLong_AsUnsignedLongLong(n);
        if value == u64::MAX && PyErr_Occurred().is_some() {
            if PyErr_ExceptionMatches(PyExc_OverflowError) == 0 {
                return Err(Raised);
            }
            PyErr_Clear();
            return value_error(c"a count is from 0 to 2**64 - 1");
        }
        Ok(value as usize)
    }
}

/// A pair of a key and its count. The key has a reference before, since an allocation may run the collector, and so any code of Python.
pub fn pair(key: Own, n: usize) -> Res<Own> {
    // SAFETY: the lock is held, and the tuple is new.
    unsafe {
        let both = made(PyTuple_New(2))?;
        let n = number(n)?;
        PyTuple_SetItem(*both, 0, key);
        PyTuple_SetItem(*both, 1, n);
        Ok(both)
    }
}

/// A list of as many things as are said.
pub fn list(len: usize, things: impl Iterator<Item = Res<Own>>) -> Res<Own> {
    // SAFETY: the lock is held, and the list is new.
    let list = made(unsafe { PyList_New(len as Size) })?;
    for (i, thing) in things.take(len).enumerate() {
        // SAFETY: the place is within the list.
        unsafe { PyList_SetItem(*list, i as Size, thing?) };
    }
    Ok(list)
}

// ---- errors

/// `hashbag.BagError`.
pub static BAG_ERROR: Locked<Cell<Option<Obj>>> = Locked(Cell::new(None));

#[cold]
fn raise<V>(kind: Obj, text: &CStr) -> Res<V> {
    // SAFETY: it is a class of exceptions, and the lock is held.
    unsafe { PyErr_SetString(kind, text.as_ptr()) };
    Err(Raised)
}

macro_rules! errors {
    ($($name:ident, $class:ident;)*) => { $(
        #[cold]
        pub fn $name<V>(text: &CStr) -> Res<V> {
            // SAFETY: CPython wrote this static before it loaded any module.
            raise(unsafe { $class }, text)
        }
    )* };
}
errors! {
    import_error, PyExc_ImportError; key_error, PyExc_KeyError; runtime_error, PyExc_RuntimeError; system_error, PyExc_SystemError;
    type_error, PyExc_TypeError; value_error, PyExc_ValueError;
}

#[cold]
pub fn no_memory<V>() -> Res<V> {
    // SAFETY: the lock is held.
    unsafe { PyErr_NoMemory() };
    Err(Raised)
}

/// Raises what the bag returned.
#[cold]
pub fn refused<V>(error: BagError) -> Res<V> {
    let text = match error {
        BagError::TooMany => c"the total would pass the limit",
        BagError::BelowTotal => c"the limit would be below the total",
        _ => return no_memory(),
    };
    raise(BAG_ERROR.get().expect("the module was loaded"), text)
}

/// Runs a call that Python makes. A panic would be a mistake of this module. It becomes a `SystemError`, and doesn't cross to Python.
#[inline(always)]
pub fn guard<V>(failed: V, call: impl FnOnce() -> V) -> V {
    catch_unwind(AssertUnwindSafe(call)).unwrap_or_else(|panic| {
        std::mem::forget(panic);
        let _ = system_error::<()>(c"a mistake in hashbag");
        failed
    })
}

/// `guard` for calls that return an object.
#[inline(always)]
pub fn guarded(call: impl FnOnce() -> Res<Own>) -> Option<Own> {
    guard(None, || call().ok())
}

/// `guard` for calls that return 0 or more, or -1 for an error.
pub fn guarded_int(call: impl FnOnce() -> Res<c_int>) -> c_int {
    guard(-1, || call().unwrap_or(-1))
}
