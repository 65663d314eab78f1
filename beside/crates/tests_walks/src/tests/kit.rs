//! How rows of text are read.
mod rows;
mod texts;
