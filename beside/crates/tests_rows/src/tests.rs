//! Rows of calls on bags of numbers, each under the four hash states; and rows of joins, of trees and of runs. `tests_kit` reads and makes them.
//! The memory that a bag and its lists take is tested here too.
mod bounds;
mod calls;
mod collections;
mod entries;
mod heaps;
mod joins;
mod limits;
mod own_bytes;
mod replies;
mod tables;
mod trees;
mod tries;
mod walks;
