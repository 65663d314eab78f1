//! Extends by results: which values are in the bag after an item that is an error, or that fails.
use hashbag::{BagError, FixedState, HashBag, TryExtendError};
use std::alloc::Global;
use std::num::ParseIntError;
use std::test::Fail;

// Extends the bag by the numbers of a text with commas between them, and returns the outcome as text.
fn extend_by(alloc: Global, bag: &mut HashBag<u64>, text: &str) -> Result<String, Fail> {
    let said = match bag.try_extend(text.split(',').map(|part| part.parse::<u64>())) {
        Ok(()) => "all",
        Err(TryExtendError::Item(_)) => "an item",
        Err(TryExtendError::Insertion(BagError::TooMany)) => "too many",
        Err(TryExtendError::Insertion(_)) => "memory",
    };
    Ok(said.to_string(alloc)?)
}

fn collect(alloc: Global, text: &str) -> Result<HashBag<u64>, TryExtendError<ParseIntError>> {
    HashBag::try_from_iter(alloc, text.split(',').map(|part| part.parse::<u64>()))
}

#[test]
fn extends_by_results(rt: HostRuntime) -> Result<(), Fail> {
    let alloc = rt.alloc();
    let mut bag = HashBag::with_limit(alloc, FixedState::new(), 6);
    for (text, said, len) in [
        ("3,5,3", "all", 3),
        ("7,x,7", "an item", 4),
        ("x", "an item", 4),
        ("7,8,9,x", "too many", 6),
        ("x,7", "an item", 6),
        ("7,x", "too many", 6),
    ] {
        assert_eq!(rt; extend_by(alloc, &mut bag, text)?.as_str(), said);
        assert_eq!(rt; bag.len(), len);
    }
    assert_eq!(rt; bag.contains(&3), 2);
    assert_eq!(rt; bag.contains(&7), 2);
    assert_eq!(rt; bag.contains(&9), 0);
    Ok(())
}

#[test]
fn collects_results(rt: HostRuntime) -> Result<(), Fail> {
    let alloc = rt.alloc();
    let bag = collect(alloc, "3,5,3")?;
    assert_eq!(rt; bag.contains(&3), 2);
    match collect(alloc, "3,x,3") {
        Ok(_) => Err(Fail::new(format_args!("an error was left out"))),
        Err(error) => {
            assert_eq!(rt;
                error.to_string(alloc)?.as_str(),
                "invalid digit found in string"
            );
            Ok(())
        }
    }
}
