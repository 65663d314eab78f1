//! What a check returns, and how often the calls have returned `Memory`.
use hashbag::BagError;

/// What is not as it must be.
#[derive(Clone, Copy, Debug)]
pub struct Wrong(pub &'static str);

/// Checks a condition. If it is false, returns `wrong`.
pub fn check(is_so: bool, wrong: &'static str) -> Result<(), Wrong> {
    if is_so { Ok(()) } else { Err(Wrong(wrong)) }
}

/// How many calls have returned that an allocation failed.
#[derive(Drop)]
pub struct Refusals {
    seen: usize,
}

impl Refusals {
    /// None yet.
    pub fn new() -> Refusals {
        Refusals { seen: 0 }
    }

    /// How many there were.
    pub fn seen(&self) -> usize {
        self.seen
    }

    /// Counts one more.
    pub fn count(&mut self) {
        self.seen = self.seen.saturating_add(1);
    }

    /// Returns what a call on a bag returned in `Ok`. `None` if an allocation failed, which is counted; no other error is right.
    pub fn answer<T: Drop>(&mut self, answer: Result<T, BagError>) -> Result<Option<T>, Wrong> {
        match answer {
            Ok(value) => Ok(Some(value)),
            Err(BagError::Memory) => {
                self.count();
                Ok(None)
            }
            Err(BagError::TooMany) => Err(Wrong("a call answered TooMany")),
            Err(BagError::BelowTotal) => Err(Wrong("a call answered BelowTotal")),
        }
    }

    /// Returns whether a call on a bag was done. If not, an allocation failed, which is counted.
    pub fn is_done(&mut self, answer: Result<(), BagError>) -> Result<bool, Wrong> {
        Ok(self.answer(answer)?.is_some())
    }
}
