//! Bags with a limit, with the results found by hand.
use std::test::Fail;
use tests_kit::calls::make_rows_under_each;

// `set` is `and_modify` that sets the count.
const ROWS: &str = "
    [a limit of five]
    with_limit 5 = ()
    insert_many 1 3 = 0
    insert_many 2 3 = TooMany
    len = 3
    insert_many 2 2 = 0
    insert 1 = TooMany
    insert_many 1 0 = 3
    len = 5
    replace 1 = 3
    len = 3
    replace 9 = 0
    len = 4
    set 2 3 = ()
    len = 5
    set 2 4 = TooMany
    contains 2 = 3
    or_insert 8 = TooMany
    or_insert_many 8 0 = 0
    set_limit 4 = BelowTotal
    limit = 5
    set_limit 5 = ()
    limit = 5
    set_limit 18446744073709551615 = ()
    limit = 18446744073709551615

    [a limit of none]
    with_limit 0 = ()
    insert 1 = TooMany
    replace 1 = TooMany
    insert_many 1 0 = 0
    tables = (0, 0, 0)

    [an extend up to the limit]
    with_limit 4 = ()
    extend_many 1:2 2:0 3:3 1:1 = TooMany
    contains 1 = 2
    contains 3 = 0
    len = 2

    [no limit set]
    limit = 18446744073709551615
    insert 1 = 0
    insert_many 2 18446744073709551615 = TooMany
    len = 1";

// Calls that don't change the limit of a bag, and one that gives it the default limit.
const KEPT: &str = "
    [calls leave the limit]
    with_limit 9 = ()
    insert_many 1 3 = 0
    equals [1, 1, 1] = (true, true)
    remove 1 = 3
    retain_none = ()
    limit = 9
    insert_many 2 4 = 0
    clear = ()
    limit = 9
    insert_many 3 9 = 0
    take_one 3 = Err(9)
    replace 3 = 8
    set 3 2 = ()
    or_insert 4 = 1
    take_all 3 = Some((3, 2))
    drain = 1
    limit = 9
    extend_many 1:2 2:3 = ()
    reserve 40 = ()
    shrink_to_fit = ()
    limit = 9
    insert_many 7 5 = TooMany
    insert_many 7 4 = 0
    default_in = ()
    limit = 18446744073709551615";

#[test]
fn limits(rt: HostRuntime) -> Result<(), Fail> {
    make_rows_under_each(rt.alloc(), ROWS)?;
    make_rows_under_each(rt.alloc(), KEPT)
}
