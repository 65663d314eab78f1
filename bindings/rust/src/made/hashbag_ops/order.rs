// Made by bindings/rust/make of crates/hashbag_ops/src/order.rt. Change that, or what `make` reads.
use crate::rattle::prelude::*;
// The values of a bag with their counts, in the order of the values or by how often they occur.

use crate::made::hashbag_core::{BagError, HashBag};
use crate::rattle::{AllocError, Global};
use std::cmp::{Ordering, Reverse};
use crate::rattle::BinaryHeap;
use std::hash::{BuildHasher, Hash};

// Returns the distinct values of a bag with their counts, in no particular order.
//
// # Errors
//
// `Memory` if the allocation of the list fails.
//
// # Complexity
//
// It makes one allocation, of the whole list. It neither hashes nor compares.
//
// # Examples
//
// ```
// let mut words: HashBag<&str> = HashBag::new(alloc);
// words.insert_many("the", 3)?;
// let counts = ops::counts(alloc, &words)?;
// counts.len(); // 1
// Ok(())
// ```
pub fn counts<'a, T: Eq + Hash, S: BuildHasher>(
    alloc: Global,
    bag: &'a HashBag<T, S>,
) -> Result<Vec<(&'a T, usize)>, BagError>
{
    let mut list = Vec::with_capacity(alloc, bag.set_len())?;
    for pair in bag.set_iter() {
        if list.push(pair).is_err() {
            return Err(BagError::Memory);
        }
    }
    Ok(list)
}

// Returns the distinct values of a bag with their counts, values in ascending order. Bags with the same counts give equal lists, whatever
// their history and states.
//
// # Errors
//
// `Memory` if the allocation of the list fails.
//
// # Complexity
//
// It makes one allocation, of the whole list, and sorts it. It hashes nothing.
//
// # Examples
//
// ```
// let mut words: HashBag<&str> = HashBag::new(alloc);
// words.insert_many("the", 3)?;
// words.insert("cat")?;
// let pairs = ops::sorted(alloc, &words)?;
// pairs.first().map(|pair| *pair.0); // Some("cat")
// pairs.last().map(|pair| pair.1); // Some(3)
// Ok(())
// ```
pub fn sorted<'a, T: Ord + Hash, S: BuildHasher>(
    alloc: Global,
    bag: &'a HashBag<T, S>,
) -> Result<Vec<(&'a T, usize)>, BagError>
{
    let mut pairs = counts(alloc, bag)?;
    pairs.sort_unstable();
    Ok(pairs)
}

// Returns the `k` most common values of a bag with their counts, or all if there are fewer: counts in descending order, and among equal
// counts the values in ascending order. They are the first of all values in that order.
//
// # Errors
//
// `Memory` if an allocation fails.
//
// # Complexity
//
// It hashes nothing. Let there be n distinct values.
//
// - If `k` is at least n, it allocates a list of all pairs at once, and compares as often as a sort of them does.
// - Else it allocates a heap of `k` pairs at once, and then a list of these; nothing if `k` is 0. It compares each pair once with the last of the
//   `k` pairs that it has kept so far. If the pair replaces that last one, it compares up to `3 * log2(k)` times more. To fill and to sort the heap
//   it compares up to `3 * k * log2(k)` times.
//
// # Examples
//
// ```
// let mut words: HashBag<&str> = HashBag::new(alloc);
// words.insert_many("the", 3)?;
// words.insert("sat")?;
// words.insert("cat")?;
// let pairs = ops::most_common(alloc, &words, 2)?;
// pairs.first().map(|pair| *pair.0); // Some("the")
// pairs.last().map(|pair| *pair.0); // Some("cat")
// Ok(())
// ```
pub fn most_common<'a, T: Ord + Hash, S: BuildHasher>(
    alloc: Global,
    bag: &'a HashBag<T, S>,
    k: usize,
) -> Result<Vec<(&'a T, usize)>, BagError>
{
    if k < bag.set_len() {
        return first_ranked(alloc, bag, k);
    }
    let mut pairs = counts(alloc, bag)?;
    pairs.sort_unstable_by(
        |a: &(&T, usize), b: &(&T, usize)| -> Ordering
        { b.1.cmp(&a.1).then(a.0.cmp(b.0)) },
    );
    Ok(pairs)
}

// Returns how often the most common values of a bag occur, 0 if it is empty.
//
// # Complexity
//
// It reads each distinct value once, hashes nothing and doesn't allocate.
//
// # Examples
//
// ```
// let mut words: HashBag<&str> = HashBag::new(alloc);
// words.insert_many("the", 3)?;
// words.insert("cat")?;
// ops::max_count(&words); // 3
// Ok(())
// ```
pub fn max_count<T: Eq + Hash, S: BuildHasher>(bag: &HashBag<T, S>) -> usize
{
    let mut greatest = 0;
    for (_, count) in bag.set_iter() {
        greatest = greatest.max(count);
    }
    greatest
}

// Returns the `k` most common, by a heap.
fn first_ranked<'a, T: Ord + Hash, S: BuildHasher>(
    alloc: Global,
    bag: &'a HashBag<T, S>,
    k: usize,
) -> Result<Vec<(&'a T, usize)>, BagError>
{
    let heap = heap_of_first(alloc, bag, k)?;
    let mut pairs = Vec::with_capacity(alloc, heap.len())?;
    for (Reverse(count), value) in heap.into_sorted_vec() {
        if pairs.push((value, count)).is_err() {
            return Err(BagError::Memory);
        }
    }
    Ok(pairs)
}

// Returns a heap of the first `k` by descending count and then by value, the last of them on top. Room for all is allocated at once.
fn heap_of_first<'a, T: Ord + Hash, S: BuildHasher>(
    alloc: Global,
    bag: &'a HashBag<T, S>,
    k: usize,
) -> Result<BinaryHeap<(Reverse<usize>, &'a T)>, BagError>
{
    let mut heap = BinaryHeap::with_capacity(alloc, k)?;
    for (value, count) in bag.set_iter() {
        offer(&mut heap, k, (Reverse(count), value))?;
    }
    Ok(heap)
}

// Offers a pair to a heap of the first `k` by descending count and then by value. If the heap has `k` pairs already, and the new pair comes before the
// last of these, it replaces the last.
fn offer<'a, T: Ord>(
    heap: &mut BinaryHeap<(Reverse<usize>, &'a T)>,
    k: usize,
    pair: (Reverse<usize>, &'a T),
) -> Result<(), AllocError>
{
    if heap.len() < k {
        heap.push(pair)?;
        return Ok(());
    }
    let Some(last) = heap.peek() else {
        return Ok(());
    };
    if !pair.cmp(last).is_lt() {
        return Ok(());
    }
    heap.pop();
    heap.push(pair)?;
    Ok(())
}
