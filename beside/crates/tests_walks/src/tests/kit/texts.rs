//! How rows of text are read.
use std::test::Fail;
use tests_kit::texts::{counts, debug_of, decimal, inside, is_text_of, values};

#[test]
fn lists_are_read(rt: HostRuntime) -> Result<(), Fail> {
    let alloc = rt.alloc();
    let pairs = counts(alloc, "5:2 6:18446744073709551615 1..=3:4 7..=8")?;
    is_text_of(
        "counts",
        debug_of(alloc, &pairs)?.as_str(),
        "[(5, 2), (6, 18446744073709551615), (1, 4), (2, 4), (3, 4), (7, 1), (8, 1)]",
    )?;
    let list = values(alloc, "[1, 2, 3, 3, 5..=7]")?;
    is_text_of(
        "values",
        debug_of(alloc, &list)?.as_str(),
        "[1, 2, 3, 3, 5, 6, 7]",
    )?;
    Ok(())
}

// Words that are no number.
const NO_NUMBERS: [&str; 6] = ["", "+5", "-5", "x", "1 2", "18446744073709551616"];

// Texts that aren't in brackets.
const NOT_IN_BRACKETS: [&str; 5] = ["", "1, 2", "[1", "1]", " [1]"];

#[test]
fn other_words_are_refused(rt: HostRuntime) {
    for word in &NO_NUMBERS {
        assert_eq!(rt; decimal(*word), None, "at {word}");
    }
    for text in &NOT_IN_BRACKETS {
        assert_eq!(rt; inside(*text), None, "at {text}");
    }
}
