//! The four joins as they are defined: by counting in two plain lists.
use crate::tests::steps::{ballast, mark};
use hashbag::HashBag;
use hashbag::script::Joins;
use std::alloc::{AllocError, Global};
use std::fmt::Debug;
use std::hash::BuildHasher;
use std::test::Fail;
use tests_kit::Tagged;
use tests_plain::PlainBag;

/// A plain list of occurrences, and how many there are of the ballast.
#[derive(Drop)]
pub struct Plain {
    /// The list.
    pub list: PlainBag<Tagged>,
    /// The ballast.
    pub value: Tagged,
    /// How often it occurs.
    pub times: usize,
}

impl Plain {
    /// No occurrences but those of the ballast.
    pub fn new(alloc: Global, times: usize) -> Plain {
        Plain {
            list: PlainBag::new(alloc),
            value: ballast(),
            times,
        }
    }

    /// How often a value occurs.
    pub fn count(&self, value: &Tagged) -> usize {
        let times = if *value == self.value { self.times } else { 0 };
        self.list.count(value).saturating_add(times)
    }

    /// How many occurrences there are.
    pub fn len(&self) -> usize {
        self.list.len().saturating_add(self.times)
    }

    // The first occurrence of each value.
    fn values<'a>(&'a self, alloc: Global) -> Result<Vec<&'a Tagged>, AllocError> {
        let mut values: Vec<&'a Tagged> = Vec::new(alloc);
        if self.times > 0 {
            values.push(&self.value)?;
        }
        for item in self.list.items() {
            if !values.iter().any(|value| **value == *item) {
                values.push(item)?;
            }
        }
        Ok(values)
    }

    /// How many distinct values there are.
    pub fn set_len(&self, alloc: Global) -> Result<usize, AllocError> {
        Ok(self.values(alloc)?.len())
    }
}

// The first number less the second, limited to what an `isize` can be.
fn limited_difference(x: usize, y: usize) -> isize {
    if x >= y {
        isize::try_from(x - y).unwrap_or(isize::MAX)
    } else {
        match isize::try_from(y - x) {
            Ok(fewer) => 0isize.saturating_sub(fewer),
            Err(_) => isize::MIN,
        }
    }
}

// Each value of either list once, those of the first before, with its counts in both.
fn outer_join<'a>(
    alloc: Global,
    a: &'a Plain,
    b: &'a Plain,
) -> Result<Vec<(&'a Tagged, usize, usize)>, AllocError> {
    let mut outer = Vec::new(alloc);
    for value in a.values(alloc)? {
        outer.push((value, a.count(value), b.count(value)))?;
    }
    for value in b.values(alloc)? {
        if a.count(value) == 0 {
            outer.push((value, 0, b.count(value)))?;
        }
    }
    Ok(outer)
}

// The values that occur more often in the first list, with how much more often.
fn difference<'a>(
    alloc: Global,
    a: &'a Plain,
    b: &Plain,
) -> Result<Vec<(&'a Tagged, usize)>, AllocError> {
    let mut difference = Vec::new(alloc);
    for value in a.values(alloc)? {
        let (x, y) = (a.count(value), b.count(value));
        if x > y {
            difference.push((value, x - y))?;
        }
    }
    Ok(difference)
}

// Each value of either list once, with how much more often it occurs in the first.
fn signed_difference<'a>(
    alloc: Global,
    a: &'a Plain,
    b: &'a Plain,
) -> Result<Vec<(&'a Tagged, isize)>, AllocError> {
    let mut signed = Vec::new(alloc);
    for (value, x, y) in outer_join(alloc, a, b)? {
        signed.push((value, limited_difference(x, y)))?;
    }
    Ok(signed)
}

// The values of the first list that don't occur in the second.
fn not_in<'a>(
    alloc: Global,
    a: &'a Plain,
    b: &Plain,
) -> Result<Vec<(&'a Tagged, usize)>, AllocError> {
    let mut not_in = Vec::new(alloc);
    for value in a.values(alloc)? {
        if b.count(value) == 0 {
            not_in.push((value, a.count(value)))?;
        }
    }
    Ok(not_in)
}

/// The joins of two plain lists.
pub fn plain_joins<'a>(
    alloc: Global,
    a: &'a Plain,
    b: &'a Plain,
) -> Result<Joins<'a, Tagged>, AllocError> {
    Ok(Joins {
        outer: outer_join(alloc, a, b)?,
        difference: difference(alloc, a, b)?,
        signed: signed_difference(alloc, a, b)?,
        not_in: not_in(alloc, a, b)?,
    })
}

/// The joins of two bags, each by its own call.
pub fn joins_one_by_one<'a, S: BuildHasher + Drop, S2: BuildHasher + Drop>(
    alloc: Global,
    a: &'a HashBag<Tagged, S>,
    b: &'a HashBag<Tagged, S2>,
) -> Result<Joins<'a, Tagged>, AllocError> {
    Ok(Joins {
        outer: a.outer_join(b).collect(alloc)?,
        difference: a.difference(b).collect(alloc)?,
        signed: a.signed_difference(b).collect(alloc)?,
        not_in: a.not_in(b).collect(alloc)?,
    })
}

// Values with a number each, in ascending order.
fn text_of_pairs<N: Ord + Copy + Debug>(
    alloc: Global,
    pairs: &[(&Tagged, N)],
) -> Result<String, AllocError> {
    let mut rising = Vec::new(alloc);
    for (value, number) in pairs {
        rising.push((mark(value), *number))?;
    }
    rising.sort_unstable();
    format!(in alloc; "{rising:?}")
}

// Values with two counts each, in ascending order, and how many of the first bag come before any other.
fn text_of_outer(alloc: Global, outer: &[(&Tagged, usize, usize)]) -> Result<String, AllocError> {
    let mut rising = Vec::new(alloc);
    let mut first = 0usize;
    for (value, x, y) in outer {
        if *x > 0 && first == rising.len() {
            first = first.saturating_add(1);
        }
        rising.push((mark(value), *x, *y))?;
    }
    rising.sort_unstable();
    format!(in alloc; "{first} first: {rising:?}")
}

/// What all four joins are.
pub fn text_of_joins(alloc: Global, joins: &Joins<'_, Tagged>) -> Result<String, Fail> {
    let outer = text_of_outer(alloc, &joins.outer)?;
    let difference = text_of_pairs(alloc, &joins.difference)?;
    let signed = text_of_pairs(alloc, &joins.signed)?;
    let not_in = text_of_pairs(alloc, &joins.not_in)?;
    Ok(format!(in alloc;
        "outer {outer}, difference {difference}, signed {signed}, not_in {not_in}"
    )?)
}
