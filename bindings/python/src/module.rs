//! The tables of the types, and the start of the module.
use crate::bag::{self, BAG_TYPE, BagObject};
use crate::ffi::*;
use crate::key;
use crate::methods::*;
use crate::object::{self, BAG_ERROR, Locked, Obj, Res, guarded_int, import_error, made};
use crate::walk::{self, WALK_TYPE, Walk};
use std::cell::Cell;
use std::ffi::{CStr, c_int, c_void};
use std::ptr::{null, null_mut};

const fn method(name: &'static CStr, meth: *mut c_void, flags: c_int, doc: &'static CStr) -> PyMethodDef {
    PyMethodDef { name: name.as_ptr(), meth, flags, doc: doc.as_ptr() }
}
const END: PyMethodDef = PyMethodDef { name: null(), meth: null_mut(), flags: 0, doc: null() };

macro_rules! table {
    ($($name:literal $f:ident $flags:ident $doc:literal;)*) => { [$( method($name, $f as *mut c_void, $flags, $doc), )* END] };
}

static mut METHODS: [PyMethodDef; 26] = table! {
    c"insert" m_insert METH_FASTCALL c"insert($self, key, n=1, /)\n--\n\nInserts n occurrences of a key, and returns the count before.";
    c"remove" m_remove METH_FASTCALL c"remove($self, key, n=1, /)\n--\n\nRemoves up to n occurrences of a key, and returns the count after.";
    c"take" m_take METH_O c"take($self, key, /)\n--\n\nRemoves all occurrences of a key, and returns how many there were.";
    c"get" m_get METH_FASTCALL c"get($self, key, default=None, /)\n--\n\nReturns the count of a key, or the default if it is absent.";
    c"popitem" m_popitem METH_NOARGS
        c"popitem($self, /)\n--\n\nRemoves the key that was inserted last, and returns it with its count. An empty bag raises KeyError.";
    c"total" m_total METH_NOARGS c"total($self, /)\n--\n\nReturns the sum of all counts.";
    c"clear" m_clear METH_NOARGS c"clear($self, /)\n--\n\nRemoves everything. It needs no memory.";
    c"reserve" m_reserve METH_O c"reserve($self, n, /)\n--\n\nMakes room for n more distinct keys.";
    c"shrink_to_fit" m_shrink METH_NOARGS c"shrink_to_fit($self, /)\n--\n\nFrees memory that the bag doesn't need.";
    c"__sizeof__" m_sizeof METH_NOARGS c"__sizeof__($self, /)\n--\n\nReturns the bytes of the bag, without its keys.";
    c"_limit" m_limit METH_NOARGS c"";
    c"_set_limit" m_set_limit METH_O c"";
    c"_insert_each" m_insert_each METH_O c"";
    c"_insert_split" m_insert_split METH_FASTCALL c"";
    c"_remove_each" m_remove_each METH_O c"";
    c"_insert_pairs" m_insert_pairs METH_O c"";
    c"_remove_pairs" m_remove_pairs METH_O c"";
    c"_insert_dict" m_insert_dict METH_O c"";
    c"_merge" m_merge METH_O c"";
    c"_less" m_less METH_O c"";
    c"_most_of" m_most_of METH_O c"";
    c"_keep" m_keep METH_O c"";
    c"_within" m_within METH_O c"";
    c"_most" m_most METH_O c"";
    c"_walk" m_walk METH_O c"";
};

use walk::length_hint;
static mut WALK_METHODS: [PyMethodDef; 2] = table! { c"__length_hint__" length_hint METH_NOARGS c""; };

macro_rules! slots {
    ($($slot:ident $f:expr;)*) => { [$( PyType_Slot { slot: slot::$slot, pfunc: $f as *mut c_void }, )* PyType_Slot { slot: 0, pfunc: null_mut() }] };
}

static mut BAG_SLOTS: [PyType_Slot; 11] = slots! {
    tp_new bag::new; tp_dealloc bag::dealloc::<BagObject>; tp_traverse bag::traverse; tp_clear bag::clear;
    mp_length length; mp_subscript m_subscript; mp_ass_subscript set_subscript; sq_contains contains; tp_iter iter;
    tp_methods &raw mut METHODS;
};

static mut WALK_SLOTS: [PyType_Slot; 7] = slots! {
    tp_dealloc bag::dealloc::<Walk>; tp_traverse walk::traverse; tp_clear walk::clear; tp_iter walk::itself; tp_iternext walk::next;
    tp_methods &raw mut WALK_METHODS;
};

static mut MODULE_SLOTS: [PyType_Slot; 2] = slots! { mod_exec load; };

static mut MODULE: PyModuleDef = PyModuleDef {
    base: [1, 0, 0, 0, 0],
    name: c"_hashbag".as_ptr(),
    doc: null(),
    size: 0,
    methods: null_mut(),
    slots: &raw mut MODULE_SLOTS as *mut PyType_Slot,
    traverse_clear_free: [null_mut(); 3],
};

fn make_type(module: Obj, name: &'static CStr, size: usize, flags: u32, slots: *mut PyType_Slot) -> Res<Obj> {
    let flags = TPFLAGS_DEFAULT | TPFLAGS_HAVE_GC | flags;
    let mut spec = PyType_Spec { name: name.as_ptr(), basicsize: size as c_int, itemsize: 0, flags, slots };
    // SAFETY: the tables live as long as the process, and Python 3.10 keeps pointers into them. Their functions have the signatures of their slots.
    Ok(made(unsafe { PyType_FromModuleAndSpec(module, &mut spec, None) })?.leak())
}

/// Whether an interpreter that had this module has ended.
static HAS_ENDED: Locked<Cell<bool>> = Locked(Cell::new(false));

extern "C" fn end() {
    HAS_ENDED.set(true);
}

/// Makes the types, once in a process: objects of one interpreter mean nothing in another.
fn make(module: Obj) -> Res<()> {
    // SAFETY: the lock is held.
    if HAS_ENDED.get() || unsafe { PyInterpreterState_GetID(PyInterpreterState_Get()) } != 0 {
        return import_error(c"hashbag works in the first interpreter of a process alone");
    }
    if BAG_TYPE.get().is_some() {
        return Ok(());
    }
    object::learn()?;
    key::learn()?;
    // SAFETY: the texts live as long as the process.
    let error = unsafe {
        Py_AtExit(end);
        let text = c"The total would pass the limit, or the limit be below the total.";
        made(PyErr_NewExceptionWithDoc(c"hashbag.BagError".as_ptr(), text.as_ptr(), PyExc_ValueError, None))?
    };
    let walk = make_type(module, c"_hashbag.Walk", size_of::<Walk>(), TPFLAGS_DISALLOW_INSTANTIATION, &raw mut WALK_SLOTS as *mut PyType_Slot)?;
    let bag = make_type(module, c"_hashbag.Bag", size_of::<BagObject>(), TPFLAGS_BASETYPE, &raw mut BAG_SLOTS as *mut PyType_Slot)?;
    BAG_ERROR.set(Some(error.leak()));
    WALK_TYPE.set(Some(walk));
    BAG_TYPE.set(Some(bag));
    Ok(())
}

unsafe extern "C" fn load(module: Obj) -> c_int {
    guarded_int(|| {
        make(module)?;
        for (name, o) in [(c"Bag", BAG_TYPE.get()), (c"BagError", BAG_ERROR.get())] {
            // SAFETY: both were made.
            if o.is_none_or(|o| unsafe { PyModule_AddObjectRef(module, name.as_ptr(), o) } < 0) {
                return Err(object::Raised);
            }
        }
        Ok(0)
    })
}

#[unsafe(no_mangle)]
pub unsafe extern "C" fn PyInit__hashbag() -> Option<Obj> {
    // SAFETY: the table lives as long as the process.
    unsafe { PyModuleDef_Init(&raw mut MODULE) }
}
