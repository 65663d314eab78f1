//! Tests as rows of text: how rows are read, and the calls on a bag of numbers that they name. It also has values that show which
//! instance is stored, values whose trees are objects, and hash states under which values collide.
#![tactic(auto)]

pub mod calls;
pub mod named;
pub mod rows;
pub mod states;
pub mod tagged;
pub mod texts;

pub use named::Named;
pub use rows::{Row, rows_of};
pub use states::{IdentityState, OneState, ParityState};
pub use tagged::Tagged;
