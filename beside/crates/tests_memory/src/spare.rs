//! Spare requests for memory.
use std::alloc::Global;

/// Makes `n` requests for memory that is held until all are made. It returns the number of the request that failed, from 1,
/// and then makes no more; `None` if none failed.
pub fn refused_of(alloc: Global, n: usize) -> Option<usize> {
    if n == 0 {
        return None;
    }
    let Ok(mut lists) = Vec::with_capacity(alloc, n) else {
        return Some(1);
    };
    for number in 1..n {
        let Ok(list) = vec![in alloc; number] else {
            return Some(number + 1);
        };
        if lists.push(list).is_err() {
            return Some(number + 1);
        }
    }
    None
}
