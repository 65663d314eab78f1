//! Walks, with the results found by hand: how many items they give and say that they have left, and what `Debug` writes of them.
use std::test::Fail;
use tests_kit::calls::make_rows_under_each;

// `hint` is the `size_hint` of a new walk. `drain_one` takes one value out of the bag by a drain, which is then dropped.
const ROWS: &str = "
    [of two values]
    from_iter [1, 1, 3] = ()
    iter.count = 3
    iter.hint = (3, Some(3))
    set_iter.count = 2
    set_iter.hint = (2, Some(2))
    drain.hint = (2, Some(2))
    is_empty = true
    from_iter [1, 1, 3] = ()
    drain_one = true
    len = 0
    set_len = 0
    drain_one = false

    [of one value]
    insert_many 5 3 = 0
    debug = {5, 5, 5}
    iter.debug = {5, 5, 5}
    set_iter.debug = {(5, 3)}
    drain.debug = [(5, 3)]

    [of no value]
    debug = {}
    iter.debug = {}
    set_iter.debug = {}
    drain.debug = []";

#[test]
fn walks(rt: HostRuntime) -> Result<(), Fail> {
    make_rows_under_each(rt.alloc(), ROWS)
}
