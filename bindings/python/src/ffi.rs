//! What the module uses of CPython's stable ABI, version 3.10 and later, declared by hand. The types say who owns a reference: an [`Own`] is one, an
//! [`Obj`] is none. A null pointer is `None`.
#![allow(non_snake_case, non_camel_case_types, non_upper_case_globals)]
use crate::object::{Obj, Own};
use std::ffi::{c_char, c_int, c_uint, c_ulonglong, c_void};

pub type Size = isize;
pub type visitproc = unsafe extern "C" fn(Obj, *mut c_void) -> c_int;
pub type richcmpfunc = unsafe extern "C" fn(Obj, Obj, c_int) -> Option<Own>;
pub type iternextfunc = unsafe extern "C" fn(Obj) -> Option<Own>;

/// The head of every object. The free-threaded build has another one. It doesn't load this module, whose file is named `abi3`.
#[repr(C)]
pub struct PyObject {
    pub refcnt: Size,
    pub kind: *mut PyObject,
}

#[repr(C)]
pub struct PyType_Slot {
    pub slot: c_int,
    pub pfunc: *mut c_void,
}

#[repr(C)]
pub struct PyType_Spec {
    pub name: *const c_char,
    pub basicsize: c_int,
    pub itemsize: c_int,
    pub flags: c_uint,
    pub slots: *mut PyType_Slot,
}

#[repr(C)]
pub struct PyMethodDef {
    pub name: *const c_char,
    pub meth: *mut c_void,
    pub flags: c_int,
    pub doc: *const c_char,
}

#[repr(C)]
pub struct PyModuleDef {
    pub base: [usize; 5],
    pub name: *const c_char,
    pub doc: *const c_char,
    pub size: Size,
    pub methods: *mut PyMethodDef,
    pub slots: *mut PyType_Slot,
    pub traverse_clear_free: [*mut c_void; 3],
}

macro_rules! numbers {
    ($kind:ty: $($name:ident = $number:expr;)*) => { $( pub const $name: $kind = $number; )* };
}
numbers! { c_int: Py_EQ = 2; METH_NOARGS = 4; METH_O = 8; METH_FASTCALL = 0x80; }
numbers! { c_uint: TPFLAGS_DISALLOW_INSTANTIATION = 1 << 7; TPFLAGS_BASETYPE = 1 << 10; TPFLAGS_HAVE_GC = 1 << 14; TPFLAGS_DEFAULT = 1 << 18; }
pub mod slot {
    numbers! { std::ffi::c_int:
        mod_exec = 2; mp_ass_subscript = 3; mp_length = 4; mp_subscript = 5; sq_contains = 41; tp_clear = 51; tp_dealloc = 52; tp_iter = 62;
        tp_iternext = 63; tp_methods = 64; tp_new = 65; tp_richcompare = 67; tp_traverse = 71;
    }
}

macro_rules! statics {
    ($kind:ty: $($name:ident)*) => { unsafe extern "C" { $( pub static mut $name: $kind; )* } };
}
statics! { PyObject: PyUnicode_Type PyLong_Type PyBytes_Type PyFloat_Type PyBool_Type PyList_Type PyTuple_Type PyDict_Type }
statics! { PyObject: _Py_NoneStruct _Py_TrueStruct _Py_FalseStruct }
statics! { Obj: PyExc_ImportError PyExc_KeyError PyExc_MemoryError PyExc_OverflowError PyExc_RuntimeError PyExc_StopIteration }
statics! { Obj: PyExc_SystemError PyExc_TypeError PyExc_ValueError }

unsafe extern "C" {
    pub fn Py_GetVersion() -> *const c_char;
    pub fn Py_AtExit(f: extern "C" fn()) -> c_int;
    pub fn PyInterpreterState_Get() -> *mut c_void;
    pub fn PyInterpreterState_GetID(state: *mut c_void) -> i64;
    pub fn Py_IncRef(o: Obj);
    pub fn Py_DecRef(o: Obj);
    pub fn PyObject_Hash(o: Obj) -> Size;
    pub fn PyObject_Size(o: Obj) -> Size;
    pub fn PyObject_RichCompareBool(a: Obj, b: Obj, op: c_int) -> c_int;
    pub fn PyObject_GetIter(o: Obj) -> Option<Own>;
    pub fn PyObject_GC_UnTrack(o: Obj);
    pub fn PyObject_GC_Track(o: Obj);
    pub fn PyObject_GC_IsTracked(o: Obj) -> c_int;
    pub fn PyObject_GC_Del(o: Obj);
    pub fn PyUnicode_Compare(a: Obj, b: Obj) -> c_int;
    pub fn PyUnicode_FromString(s: *const c_char) -> Option<Own>;
    pub fn PyBytes_FromStringAndSize(s: *const u8, n: Size) -> Option<Own>;
    pub fn PyBytes_AsString(o: Obj) -> *const u8;
    pub fn PyNumber_Index(o: Obj) -> Option<Own>;
    pub fn PyLong_AsUnsignedLongLong(o: Obj) -> c_ulonglong;
    pub fn PyLong_FromUnsignedLongLong(n: c_ulonglong) -> Option<Own>;
    pub fn PyErr_Occurred() -> Option<Obj>;
    pub fn PyErr_SetString(kind: Obj, text: *const c_char);
    pub fn PyErr_NoMemory() -> Option<Own>;
    pub fn PyErr_Clear();
    pub fn PyErr_ExceptionMatches(kind: Obj) -> c_int;
    pub fn PyErr_Fetch(kind: *mut Option<Own>, value: *mut Option<Own>, trace: *mut Option<Own>);
    pub fn PyErr_Restore(kind: Option<Own>, value: Option<Own>, trace: Option<Own>);
    pub fn PyErr_NewExceptionWithDoc(name: *const c_char, doc: *const c_char, base: Obj, dict: Option<Own>) -> Option<Own>;
    pub fn PyType_FromModuleAndSpec(m: Obj, spec: *mut PyType_Spec, bases: Option<Obj>) -> Option<Own>;
    pub fn PyType_GenericAlloc(kind: Obj, n: Size) -> Option<Own>;
    pub fn PyType_GetSlot(kind: Obj, slot: c_int) -> *mut c_void;
    pub fn PyType_IsSubtype(a: Obj, b: Obj) -> c_int;
    pub fn PyList_New(n: Size) -> Option<Own>;
    pub fn PyList_SetItem(l: Obj, i: Size, o: Own) -> c_int;
    pub fn PyTuple_New(n: Size) -> Option<Own>;
    pub fn PyTuple_Size(t: Obj) -> Size;
    pub fn PyTuple_GetItem(t: Obj, i: Size) -> Option<Obj>;
    pub fn PyTuple_SetItem(t: Obj, i: Size, o: Own) -> c_int;
    pub fn PyDict_Next(d: Obj, at: *mut Size, key: *mut Option<Obj>, value: *mut Option<Obj>) -> c_int;
    pub fn PyDict_Size(d: Obj) -> Size;
    pub fn PySequence_Tuple(o: Obj) -> Option<Own>;
    pub fn PyModuleDef_Init(def: *mut PyModuleDef) -> Option<Obj>;
    pub fn PyModule_AddObjectRef(m: Obj, name: *const c_char, o: Obj) -> c_int;
}
