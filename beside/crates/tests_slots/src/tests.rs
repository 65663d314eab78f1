//! What no clause says: that calls succeed, and values are where the table of steps has them, that memory is given back and each value is
//! dropped once. It also has what the tests need: tables that know that their values are found.
//!
//! A test is proved before it runs, and carries on what each of its calls promises. So calls are made and compared in functions
//! with no contract.
mod agreement;
mod checks;
mod drops;
mod held;
mod names;
mod pair;
mod places;
mod rows;
mod walks;
