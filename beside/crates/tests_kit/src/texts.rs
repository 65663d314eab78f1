//! The words of rows: how they are read, and how results are compared.
//!
//! A row that can't be read fails its test: nothing is skipped.
use crate::tagged::Tagged;
use std::alloc::Global;
use std::fmt::Debug;
use std::test::Fail;

/// Returns the texts before and after a mark, which has to be there.
pub fn halves<'a>(row: &'a str, mark: &str) -> Result<(&'a str, &'a str), Fail> {
    match row.split_once(mark) {
        Some((before, after)) => Ok((before.trim(), after.trim())),
        None => Err(Fail::new(format_args!("no `{mark}` in: {row}"))),
    }
}

/// Returns the number of a word of decimal digits, and `None` for any other word.
pub fn decimal(word: &str) -> Option<u64> {
    if !word.bytes().all(|byte| byte.is_ascii_digit()) {
        return None;
    }
    word.parse().ok()
}

/// Returns the number of a word of decimal digits.
pub fn number(word: &str) -> Result<u64, Fail> {
    match decimal(word) {
        Some(number) => Ok(number),
        None => Err(Fail::new(format_args!("no number: {word}"))),
    }
}

/// Returns the count of a word of decimal digits.
pub fn count(word: &str) -> Result<usize, Fail> {
    Ok(number(word)? as usize)
}

// Returns the first and the last of the values that a word means: `7` is one, and `1..=25` are twenty-five.
fn range(word: &str) -> Result<(u64, u64), Fail> {
    match word.split_once("..=") {
        Some((first, last)) => Ok((number(first)?, number(last)?)),
        None => Ok((number(word)?, number(word)?)),
    }
}

/// Returns the values and counts of a list as `5:2 6`, in which 6 occurs once. `1..=25:2` is each value from 1 to 25 with the count 2.
pub fn counts(alloc: Global, text: &str) -> Result<Vec<(u64, usize)>, Fail> {
    let mut pairs = Vec::new(alloc);
    for word in text.split_whitespace() {
        let (values, times) = word.split_once(':').unwrap_or((word, "1"));
        let (first, last) = range(values)?;
        let times = count(times)?;
        for value in first..=last {
            pairs.push((value, times))?;
        }
    }
    Ok(pairs)
}

/// Returns the text in brackets, and `None` if there are none.
pub fn inside(text: &str) -> Option<&str> {
    text.strip_prefix('[')?.strip_suffix(']')
}

/// Returns the values of a list as `[1, 2, 3, 3]`. `[1..=25]` are the values from 1 to 25.
pub fn values(alloc: Global, text: &str) -> Result<Vec<u64>, Fail> {
    let mut list = Vec::new(alloc);
    let Some(inner) = inside(text) else {
        return Err(Fail::new(format_args!("no list: {text}")));
    };
    if !inner.is_empty() {
        for word in inner.split(", ") {
            let (first, last) = range(word)?;
            for value in first..=last {
                list.push(value)?;
            }
        }
    }
    Ok(list)
}

/// Returns the value that is written as its key and its tag, as `1:10`.
pub fn tagged(word: &str) -> Result<Tagged, Fail> {
    let (key, tag) = halves(word, ":")?;
    Ok(Tagged {
        key: number(key)?,
        tag: number(tag)?,
    })
}

/// Compares two texts.
pub fn is_text(got: &str, want: &str) -> Result<(), Fail> {
    if got == want {
        return Ok(());
    }
    Err(Fail::new(format_args!("{got}, not {want}")))
}

/// Compares two texts. A failure begins with `what`.
pub fn is_text_of(what: &str, got: &str, want: &str) -> Result<(), Fail> {
    if got == want {
        return Ok(());
    }
    Err(Fail::new(format_args!("{what}: {got}, not {want}")))
}

/// Returns the text that `Debug` writes of a value.
pub fn debug_of<T: Debug>(alloc: Global, value: &T) -> Result<String, Fail> {
    Ok(format!(in alloc; "{value:?}")?)
}
