//! The public error, and the panics of calls that have no other way to report it. By hand: the source has no panics.
use crate::made::hashbag_core::BagError as Proved;
use crate::rattle::AllocError;
use std::fmt;

/// The error that the `try_` methods and [`HashBag::set_limit`](crate::HashBag::set_limit) return. The bag is then unchanged.
///
/// # Examples
///
/// ```
/// use hashbag::{BagError, HashBag};
///
/// let mut bag: HashBag<_> = [5].into_iter().collect();
/// bag.set_limit(1).unwrap();
/// let error = bag.try_insert(6).unwrap_err();
/// assert_eq!(error, BagError::TooMany);
/// assert_eq!(error.to_string(), "total past its end");
/// ```
#[derive(Clone, Copy, Debug, PartialEq, Eq, Hash)]
#[non_exhaustive]
pub enum BagError {
    /// An allocation failed, or the bag would have more than 3 * 2^57 distinct values.
    Memory,
    /// The total would be greater than the bag's limit.
    TooMany,
    /// The limit would be less than the total.
    BelowTotal,
}

impl fmt::Display for BagError {
    fn fmt(&self, f: &mut fmt::Formatter<'_>) -> fmt::Result {
        f.write_str(match self {
            BagError::Memory => "no memory",
            BagError::TooMany => "total past its end",
            BagError::BelowTotal => "limit below total",
        })
    }
}

impl std::error::Error for BagError {}

impl From<Proved> for BagError {
    fn from(error: Proved) -> BagError {
        match error {
            Proved::Memory => BagError::Memory,
            Proved::TooMany => BagError::TooMany,
            Proved::BelowTotal => BagError::BelowTotal,
        }
    }
}

impl From<AllocError> for BagError {
    fn from(_: AllocError) -> BagError {
        BagError::Memory
    }
}

/// What panics where the call has no way to report it.
#[cold]
#[track_caller]
fn refused(error: BagError) -> ! {
    match error {
        BagError::Memory => panic!("no memory for the bag"),
        BagError::TooMany => panic!("the total would pass the bag's limit"),
        BagError::BelowTotal => panic!("the limit would be below the bag's total"),
    }
}

#[inline(always)]
#[track_caller]
pub(crate) fn ok<V, E: Into<BagError>>(result: Result<V, E>) -> V {
    match result {
        Ok(value) => value,
        Err(error) => refused(error.into()),
    }
}
