//! The type `Bag` of Python: its fields and its life.
use crate::content::Content;
use crate::ffi::*;
use crate::object::*;
use hashbag::BagError;
use std::cell::{Cell, Ref, RefCell, RefMut};
use std::ffi::{c_int, c_void};
use std::ptr::{drop_in_place, write};

/// A bag of Python. Its content is borrowed while no code of Python runs; a borrow that lasted longer would panic, and not spoil memory.
#[repr(C)]
pub struct BagObject {
    head: PyObject,
    content: RefCell<Content>,
}

pub static BAG_TYPE: Locked<Cell<Option<Obj>>> = Locked(Cell::new(None));

/// A bag that a call got as an argument.
pub fn bag_arg<'a>(o: Obj) -> Res<&'a BagObject> {
    // SAFETY: both are types.
    if BAG_TYPE.get().is_none_or(|bag| unsafe { PyType_IsSubtype(o.kind(), bag) } == 0) {
        return type_error(c"expected a bag");
    }
    // SAFETY: it is a bag, and alive.
    Ok(unsafe { o.fields() })
}

impl BagObject {
    pub fn look(&self) -> Ref<'_, Content> {
        self.content.borrow()
    }

    pub fn change(&self) -> RefMut<'_, Content> {
        self.content.borrow_mut()
    }

    pub fn object(&self) -> Obj {
        Obj::lasting((&raw const *self).cast_mut().cast())
    }

    pub fn limit(&self) -> usize {
        self.look().bag.limit()
    }

    pub fn total(&self) -> usize {
        self.look().bag.len()
    }

    pub fn bytes(&self) -> usize {
        self.look().bytes()
    }

    /// Changes the content; returns None, or raises the error.
    pub fn done(&self, change: impl FnOnce(&mut Content) -> Result<(), BagError>) -> Res<Own> {
        let done = change(&mut self.change());
        done.map(|()| none()).or_else(refused)
    }

    /// Gives the bag another content. The former one is dropped when the bag isn't borrowed any more, which may run code of Python.
    pub fn exchange(&self, mut content: Content) {
        let former = {
            let mut here = self.change();
            (content.version, content.stamp) = (here.version + 1, here.stamp + 1);
            std::mem::replace(&mut *here, content)
        };
        drop(former);
    }

    /// Takes all keys out, then drops the references. It needs no memory.
    pub fn empty(&self) {
        self.exchange(Content::new(self.limit()));
    }
}

// ---- the life of a bag

/// A new bag of a class of Python, whose own deallocation cuts long chains: a bag whose key is a walk of a bag whose key is a walk..
pub unsafe extern "C" fn new(kind: Obj, _args: Obj, _named: Option<Obj>) -> Option<Own> {
    if Some(kind) == BAG_TYPE.get() {
        return type_error(c"make a hashbag.HashBag").ok();
    }
    // SAFETY: the object is of the right size and all zero, and Python sees it only when all fields are written.
    unsafe {
        let o = PyType_GenericAlloc(kind, 0)?;
        write(&raw mut (*o.memory::<BagObject>()).content, RefCell::new(Content::new(usize::MAX)));
        Some(o)
    }
}

/// Frees an object: what it has, its memory, and its reference to its type.
///
/// # Safety
/// The object has the fields `V` and no references, and nobody uses it any more.
pub unsafe extern "C" fn dealloc<V>(o: Obj) {
    // SAFETY: Python calls this once. The type is given back last, since it has this function.
    guard((), || unsafe {
        PyObject_GC_UnTrack(o);
        drop_in_place(o.memory::<V>());
        let kind = Own::back(o.kind());
        PyObject_GC_Del(o);
        drop(kind);
    })
}

pub unsafe extern "C" fn traverse(o: Obj, visit: visitproc, arg: *mut c_void) -> c_int {
    // SAFETY: Python gives a bag. A visit changes nothing.
    guard(0, || unsafe {
        let r = visit(o.kind(), arg);
        let content = o.fields::<BagObject>().look();
        if r != 0 || content.is_simple {
            return r;
        }
        content.row.iter().map(|(at, _)| visit(at, arg)).find(|&r| r != 0).unwrap_or(0)
    })
}

pub unsafe extern "C" fn clear(o: Obj) -> c_int {
    // SAFETY: Python gives a bag.
    guard((), || unsafe { o.fields::<BagObject>() }.empty());
    0
}
