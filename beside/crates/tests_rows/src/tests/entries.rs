//! The entry view, with the results found by hand.
use std::test::Fail;
use tests_kit::calls::make_rows_under_each;

// `entry` drops an entry at once. `set` and `raise` are `and_modify`, which calls nothing if the entry is vacant.
const ROWS: &str = "
    [lens after entries]
    entry 42 = ()
    len = 0
    raise 42 3 = ()
    len = 0
    or_insert_many 42 3 = 3
    len = 3
    raise 42 3 = ()
    len = 6
    or_insert 84 = 1
    len = 7

    [inserts once]
    or_insert_many 84 3 = 3
    or_insert_many 84 2 = 3
    or_insert 84 = 3
    len = 3
    or_insert_many 4 0 = 0
    contains 4 = 0
    set_len = 1

    [sets to none]
    insert_many 5 3 = 0
    set 5 0 = ()
    contains 5 = 0
    len = 0
    set_len = 0
    set 5 7 = ()
    len = 0

    [totals within]
    insert_many 1 18446744073709551615 = 0
    or_insert 2 = TooMany
    or_insert_many 2 0 = 0
    set 1 18446744073709551615 = ()
    set 1 5 = ()
    len = 5

    [totals past their end]
    insert 1 = 0
    insert_many 2 18446744073709551614 = 0
    set 1 2 = TooMany
    contains 1 = 1
    contains 2 = 18446744073709551614
    len = 18446744073709551615

    [sets to the end: none of another value still goes in]
    insert_many 1 3 = 0
    set 1 18446744073709551615 = ()
    len = 18446744073709551615
    insert_many 2 0 = 0
    contains 2 = 0";

#[test]
fn entries(rt: HostRuntime) -> Result<(), Fail> {
    make_rows_under_each(rt.alloc(), ROWS)
}
