"""What `make` takes out of the sources of the bag, what it writes otherwise, and which methods it frees of bounds. `cures.diff` has the rest: places
that are changed by hand, each with its reason."""
import re

# The crates that modules are made of, lowest first.
CRATES = ("hashbag_slots", "hashbag_table", "hashbag_core", "hashbag_ops")

# Sources of which no module is made: JSON, which serde has here; and how a row of cells is written without reading it, which the cells by hand do.
LEFT_OUT = (
    "hashbag_slots/block",
    "hashbag_slots/row",
    "hashbag_core/json",
    "hashbag_core/json/items",
    "hashbag_core/json/texts",
    "hashbag_core/json/trees",
)


def derives(found):
    """A derive without the kit's: no type of these needs `Drop` or `Error`."""
    left = [it.strip() for it in found[1].split(",") if it.strip() not in ("Drop", "Error")]
    return f"#[derive({', '.join(left)})]" if left else ""


def without_bounds(found):
    """The head of a type or of an impl, whose parameters have no bounds then."""
    return re.sub(r": (Eq \+ Hash|Eq|BuildHasher)\b", "", found[0])


# What is written otherwise: a pattern of a part of a line, and what is put in its place, in this order. CRATE is the crate of the line's file. A line
# of which nothing is left is taken out.
PAIRS = [(re.compile(what), by) for what, by in [
    # What Rust lacks or needs no name for
    (r"^#!\[tactic\(auto\)\]$", ""),
    (r"^\s*#\[error(_bound)?\(.*\)\]$", ""),
    (r"^use (thiserror::Error|std::marker::Model|std::fmt::Display);$", ""),
    (r"std::marker::\{Model, PhantomData\}", "std::marker::PhantomData"),
    (r"#\[derive\(([^)]*)\)\]", derives),
    (r"\s*\+ Drop\b", ""),
    (r": Drop\b(?=[,>])", ""),
    (r"\bprove!\(", "assert!("),
    (r"^(pub )?mod (row|block|json);$", ""),
    (r"^pub use json::.*$", ""),

    # A formatter writes to anything.
    (r"std::fmt::\{self, Debug, Formatter, Write\}", "std::fmt::{self, Debug, Formatter}"),
    (r"fn fmt<W: Write>\(&self, f: &mut Formatter<W>\)", "fn fmt(&self, f: &mut Formatter<'_>)"),

    # A type has no bounds, and a table of slots compares nothing.
    (r"^(?:pub )?(?:struct|enum) .*$", without_bounds),
    (r"\bT: Eq(?=[,>])", "T"),
    (r"^impl<.*> IntoIterator for .*$", without_bounds),

    # Comments are no documentation here: their examples are in Rattle.
    (r"^(\s*)//[!/]", r"\1//"),

    # Names of crates are names of modules, and what is used of the kit is in the module `rattle`.
    (r"\bcrate::", "crate::made::CRATE::"),
    (r"(?<![:\w])(hashbag_(?:slots|table|core|ops)\b)(?=::|;)", r"crate::made::\1"),
    (r"\bstd::alloc::", "crate::rattle::"),
    (r"\bstd::collections::BinaryHeap\b", "crate::rattle::BinaryHeap"),
    (r"\bstd::simd::prelude::\*", "crate::sixteen::u8x16"),
    # The sources have proved that these tags are there (src/sixteen.rs), so they are read without a test.
    (r"u8x16::from_slice\(&tags\[from\.\.\]\)", "u8x16::at(tags, from)"),
    (r"\btags\[first\]", "crate::sixteen::tag_at(tags, first)"),
    (r"use std::hash::\{BuildHasher, BuildHasherDefault, FoldHasher, Hash\};",
     "use crate::rattle::FoldHasher; use std::hash::{BuildHasher, BuildHasherDefault, Hash};"),

    # A clone may fail.
    (r"\bClone for\b", "TryClone for"),
    (r"(?<=[:+] )Clone\b", "TryClone"),
    (r"\bfn clone\(", "fn try_clone("),
    (r"\.clone\(\)", ".try_clone()"),
]]

# Methods that need no bounds: of each file, the head of an impl without bounds, and its methods. The impl around such a method is closed before it
# and opened again after it.
TABLE, BAG = "impl<T, S> Table<T, S> {", "impl<T, S> HashBag<T, S> {"
FREED = {
    "hashbag_table/table": (TABLE, "slots waiting room set_len capacity clear walk into_walk drain"),
    "hashbag_table/table/make": (TABLE, "with_room"),
    "hashbag_core/bag": (BAG, "limit set_limit len set_len is_empty"),
    "hashbag_core/bag/capacity": (BAG, "capacity slots waiting room"),
    "hashbag_core/bag/retain": (BAG, "clear"),
    "hashbag_core/iters": (BAG, "iter set_iter drain"),
}
