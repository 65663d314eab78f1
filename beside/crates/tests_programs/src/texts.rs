//! What is written is compared with the text that is wanted.
use std::test::Fail;

/// Checks that the text is this one.
pub fn is_text(found: &str, wanted: &str) -> Result<(), Fail> {
    if found == wanted {
        return Ok(());
    }
    Err(Fail::new(format_args!("{found:?}, not {wanted:?}")))
}

/// Checks that the bytes are this text.
pub fn are_text(found: &[u8], wanted: &str) -> Result<(), Fail> {
    is_text(str::from_utf8(found)?, wanted)
}
