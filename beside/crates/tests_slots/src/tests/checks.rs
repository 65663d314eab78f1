//! How results are compared.
use std::fmt::Debug;
use std::process::Abort;

/// Checks what a call on a value, or with a number, returns.
pub fn returns<T: PartialEq + Debug>(rt: &impl Abort, call: &str, value: u64, got: &T, wanted: &T) {
    assert_eq!(rt; *got, *wanted, "{call} {value}");
}
