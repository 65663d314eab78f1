//! Keys: what the bag has of an object of Python. No code of Python runs in anything here, so none runs while a bag is borrowed.
//!
//! A key is 32 bits of its object's hash, and the object's place in the row of its bag. `==` of keys is: the same hash, and the same object or equal
//! values of one simple kind. For one row that is an equivalence, it never fails, and equal keys hash alike, whatever Python's objects do. That other
//! objects are equal is decided before, outside of the bag.
//!
//! Which row that is, [`aim`] says before each call of the bag.
use crate::ffi::*;
use crate::object::{Locked, Obj, Raised, Res, made};
use crate::row::Entry;
use std::cell::{Cell, RefCell};
use std::ffi::c_void;
use std::hash::{BuildHasherDefault, Hash, Hasher};
use std::mem::transmute;

#[derive(Clone, Copy, Debug)]
pub struct Key {
    pub hash: u32,
    pub place: u32,
}

/// The place of an object that is looked up, which is in no row.
pub const SOUGHT: u32 = u32::MAX;

/// The kind of an object, if it is simple: of the exact type `str`, `bytes`, or `int`, `float`, `bool`, which are one kind, numbers. Their `==` and
/// `hash` are of C alone, and a value of one kind equals none of another.
#[inline(always)]
pub fn simple_kind(o: Obj) -> Option<Obj> {
    let kind = o.kind();
    if kind.is(&raw const PyUnicode_Type) || kind.is(&raw const PyLong_Type) || kind.is(&raw const PyBytes_Type) {
        return Some(kind);
    }
    let is_number = kind.is(&raw const PyFloat_Type) || kind.is(&raw const PyBool_Type);
    is_number.then_some(Obj::lasting(&raw mut PyLong_Type))
}

// ---- what `==` looks at

/// The row of the bag that is called, the object that is sought, and the places of keys that `==` couldn't judge.
struct Aim {
    row: Cell<*const Entry>,
    sought: Cell<Option<Obj>>,
    has_met: Cell<bool>,
    met: RefCell<Vec<u32>>,
    is_refused: Cell<bool>,
}

static AIM: Locked<Aim> = Locked(Aim {
    row: Cell::new(std::ptr::null()),
    sought: Cell::new(None),
    has_met: Cell::new(false),
    met: RefCell::new(Vec::new()),
    is_refused: Cell::new(false),
});

/// Says what keys are of, before a call of a bag.
///
/// # Safety
/// Until the next `aim`, keys are compared only if their places are in this row, and not gaps, or `SOUGHT`. The sought object lives as long.
#[inline(always)]
pub unsafe fn aim(row: *const Entry, sought: Option<Obj>) {
    AIM.row.set(row);
    AIM.sought.set(sought);
    AIM.has_met.set(false);
}

#[inline(always)]
fn object(place: u32) -> Obj {
    // SAFETY: the word of the caller of `aim`.
    unsafe { if place == SOUGHT { AIM.sought.get().unwrap_unchecked() } else { (*AIM.row.get().add(place as usize)).at.unwrap_unchecked() } }
}

/// Whether the last look-up met a key of its hash that may be equal, since one of both isn't simple.
pub fn has_met() -> bool {
    AIM.has_met.get()
}

/// The places of the keys that the last look-up met, each once, in order.
pub struct Met(pub Vec<u32>);

/// What the last look-up met; nothing if memory was refused.
pub fn met() -> Option<Met> {
    let mut met = AIM.met.take();
    if !has_met() {
        met.clear();
    }
    met.sort_unstable();
    met.dedup();
    if has_met() && AIM.is_refused.get() { None } else { Some(Met(met)) }
}

impl Drop for Met {
    fn drop(&mut self) {
        AIM.met.replace(std::mem::take(&mut self.0)); // its memory serves again
    }
}

/// Notes keys that `==` can't judge, and says that they aren't equal.
#[inline(never)]
fn note(one: u32, other: u32) -> bool {
    let mut met = AIM.met.borrow_mut();
    if !AIM.has_met.replace(true) {
        met.clear();
        AIM.is_refused.set(false);
    }
    if met.try_reserve(1).is_ok() {
        met.push(if one == SOUGHT { other } else { one });
    } else {
        AIM.is_refused.set(true);
    }
    false
}

impl PartialEq for Key {
    #[inline(always)]
    fn eq(&self, other: &Key) -> bool {
        if self.hash != other.hash {
            return false;
        }
        let (a, b) = (object(self.place), object(other.place));
        match (simple_kind(a), simple_kind(b)) {
            _ if a == b => true,
            (Some(kind), Some(another)) if kind == another => alike(kind, a, b).unwrap_or_else(|| note(self.place, other.place)),
            (Some(_), Some(_)) => false,
            _ => note(self.place, other.place),
        }
    }
}

impl Eq for Key {}

/// Whether two objects of one simple kind are equal, by the type's own function: it runs no code of Python, and doesn't look at the depth of
/// recursion. It may lack memory for a `float` and a large `int`; then it says nothing.
#[inline(always)]
fn alike(kind: Obj, a: Obj, b: Obj) -> Option<bool> {
    // SAFETY: both are alive and of that kind. The slot is a function of this signature.
    unsafe {
        if kind.is(&raw const PyUnicode_Type) {
            return Some(PyUnicode_Compare(a, b) == 0);
        }
        let (a, b) = if b.kind().is(&raw const PyFloat_Type) { (b, a) } else { (a, b) }; // an `int` knows no `float`
        let compare = transmute::<*mut c_void, richcmpfunc>(PyType_GetSlot(a.kind(), slot::tp_richcompare));
        let equal = compare(a, b, Py_EQ);
        if equal.is_none() {
            PyErr_Clear();
        }
        Some(equal?.is(&raw const _Py_TrueStruct))
    }
}

// ---- hashes

/// What Python's own secret makes of a word.
static SECRET: Locked<Cell<u64>> = Locked(Cell::new(0));

/// Gets the secret of the process, once.
pub fn learn() -> Res<()> {
    // SAFETY: the lock is held, and a `str` has a hash.
    unsafe {
        let word = made(PyUnicode_FromString(c"the secret of this process".as_ptr()))?;
        SECRET.set(PyObject_Hash(*word) as u64);
    }
    Ok(())
}

/// The 32 bits that are kept of an object's hash. All 64 go into them, under the secret of the process. Of an object that isn't simple, code of
/// Python may run.
#[inline(always)]
pub fn hash_of(o: Obj) -> Res<u32> {
    // SAFETY: it is alive.
    let hash = unsafe { PyObject_Hash(o) };
    if hash == -1 {
        return Err(Raised);
    }
    let wide = (hash as u64 ^ SECRET.get()) as u128 * 0x9e37_79b9_7f4a_7c15_u128;
    Ok((wide as u64 ^ (wide >> 64) as u64) as u32)
}

impl Hash for Key {
    fn hash<H: Hasher>(&self, state: &mut H) {
        state.write_u32(self.hash)
    }
}

/// The state of the bag's table: the kept bits are spread already, and an odd factor brings them to where the table looks.
pub type State = BuildHasherDefault<Spread>;

#[derive(Default)]
pub struct Spread(u64);

impl Hasher for Spread {
    fn finish(&self) -> u64 {
        self.0
    }
    fn write(&mut self, bytes: &[u8]) {
        for &byte in bytes {
            self.write_u32(self.0 as u32 ^ u32::from(byte)); // keys write one u32 alone
        }
    }
    fn write_u32(&mut self, hash: u32) {
        self.0 = (hash as u64).wrapping_mul(0x9e37_79b9_7f4a_7c15)
    }
}
