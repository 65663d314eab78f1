//! Calls with an iterable, a dict, or a file's bytes.
use crate::bag::BagObject;
use crate::content::Sought;
use crate::ffi::*;
use crate::lookup::insert;
use crate::object::*;
use std::mem::transmute;

/// Calls `f` with each item of an iterable. The iterable's own code runs between the calls.
#[inline(always)]
pub fn each(from: Obj, mut f: impl FnMut(Obj) -> Res<()>) -> Res<()> {
    // SAFETY: `from` is alive, and an iterator's type has the function that gives the next item.
    unsafe {
        let iter = made(PyObject_GetIter(from))?;
        let next = PyType_GetSlot(iter.kind(), slot::tp_iternext);
        if next.is_null() {
            return type_error(c"the iterator has no next item");
        }
        let next = transmute::<*mut std::ffi::c_void, iternextfunc>(next);
        while let Some(item) = next(*iter) {
            f(*item)?;
        }
        if PyErr_Occurred().is_some() {
            if PyErr_ExceptionMatches(PyExc_StopIteration) == 0 {
                return Err(Raised);
            }
            PyErr_Clear();
        }
        Ok(())
    }
}

/// How many items a list or a tuple has; of others it isn't asked.
fn length_of(from: Obj) -> usize {
    let is_known = from.kind().is(&raw const PyList_Type) || from.kind().is(&raw const PyTuple_Type);
    // SAFETY: these exact types say it without code of Python.
    if is_known { unsafe { PyObject_Size(from) as usize } } else { 0 }
}

/// Inserts each item once.
pub fn insert_each(b: &BagObject, from: Obj) -> Res<()> {
    let length = length_of(from);
    let mut seen = 0;
    each(from, |item| {
        seen += 1;
        if insert(b, &Sought::of(item)?, 1)? == 0 && length > seen && b.look().bag.room() == 0 {
            b.change().grow_ahead(seen, length - seen);
        }
        Ok(())
    })?;
    // What waits to be carried is carried, if that costs less than what was done. Then a look-up probes one table alone.
    let mut content = b.change();
    if content.bag.waiting() < 4 * seen {
        content.bag.finish_carry();
    }
    Ok(())
}

/// Calls `f` with each key and count of an iterable of pairs.
pub fn each_pair(from: Obj, mut f: impl FnMut(Sought, usize) -> Res<usize>) -> Res<()> {
    each(from, |item| {
        // SAFETY: the item is alive, and what a tuple has is alive with it.
        unsafe {
            let both = if item.kind().is(&raw const PyTuple_Type) { item.own() } else { made(PySequence_Tuple(item))? };
            if PyTuple_Size(*both) != 2 {
                return value_error(c"expected pairs of a key and a count");
            }
            let n = count_of(made(PyTuple_GetItem(*both, 1))?)?;
            f(Sought::of(made(PyTuple_GetItem(*both, 0))?)?, n).map(|_| ())
        }
    })
}

/// Inserts the keys of a dict as often as it says. Its own code and that of a subclass isn't called.
pub fn insert_dict(b: &BagObject, from: Obj) -> Res<()> {
    // SAFETY: both are types.
    if unsafe { PyType_IsSubtype(from.kind(), Obj::lasting(&raw mut PyDict_Type)) } == 0 {
        return type_error(c"expected a dict");
    }
    // SAFETY: it is a dict.
    let size = unsafe { PyDict_Size(from) };
    let is_empty = b.look().bag.is_empty();
    let room = if is_empty { b.change().reserve(size as usize) } else { Ok(()) };
    room.or_else(refused)?;
    let (mut at, mut key, mut n) = (0, None, None);
    // SAFETY: it is a dict. A walk over a dict that changes is safe, and ends here.
    while unsafe { PyDict_Next(from, &mut at, &mut key, &mut n) } != 0 {
        let (Some(key), Some(n)) = (key, n) else { break };
        let (key, n) = (key.own(), n.own()); // code that runs may change the dict
        insert(b, &Sought::of(*key)?, count_of(*n)?)?;
        // SAFETY: it is a dict.
        if unsafe { PyDict_Size(from) } != size {
            return runtime_error(c"dictionary changed size during iteration");
        }
    }
    Ok(())
}

/// Inserts each piece of some bytes once, which one byte separates.
pub fn insert_split(b: &BagObject, data: Obj, separator: u8) -> Res<()> {
    if !data.kind().is(&raw const PyBytes_Type) {
        return type_error(c"expected bytes");
    }
    // SAFETY: it is alive during the call, and doesn't change.
    let bytes = unsafe { std::slice::from_raw_parts(PyBytes_AsString(data), PyObject_Size(data) as usize) };
    for piece in bytes.split(|&it| it == separator) {
        // SAFETY: the piece lies within the bytes.
        let key = made(unsafe { PyBytes_FromStringAndSize(piece.as_ptr(), piece.len() as Size) })?;
        insert(b, &Sought::of(*key)?, 1)?;
    }
    Ok(())
}
