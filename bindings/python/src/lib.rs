//! `_hashbag.Bag`: the bag of the crate `hashbag` as a type of Python.
//!
//! No code of Python runs while a bag of the crate is borrowed: an object is compared, hashed or dropped before or after, never within.
//!
//! # What `unsafe` rests on
//!
//! Python keeps its word for the functions in the tables of [`module`]: the interpreter's lock is held, each argument is alive and stays so during
//! the call, and the first is an object of the type that has the table. A method that takes a bag as an argument tests its type ([`bag::bag_arg`]).
//! All else is said by types: [`refs::Obj`] is alive, [`refs::Own`] is a reference, [`refs::Locked`] is used under the lock, a content is borrowed by
//! a `RefCell`.

mod bag;
mod bulk;
mod content;
mod ffi;
mod key;
mod lookup;
mod methods;
mod module;
mod object;
mod refs;
mod row;
mod two;
mod walk;
