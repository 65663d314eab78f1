//! How all values of a table are dropped while the table lives on. By hand: the source knows no panic.
use super::Slots;

/// A table whose values are being dropped. Its drop makes each slot Empty, also after a panic. What wasn't dropped then leaks.
pub(super) struct MadeEmpty<'a, T>(pub(super) &'a mut Slots<T>);

impl<T> Drop for MadeEmpty<'_, T> {
    fn drop(&mut self) {
        self.0.make_empty();
        self.0.cells.leak();
    }
}
