//! Single calls on the bag, with the results found by hand.
use std::test::Fail;
use tests_kit::calls::make_rows_under_each;

// Making room doesn't change what a bag has. Room can be made for 3 * 2^57 values, which is 432345564227567616, and for no more.
const ROWS: &str = "
    [inserts]
    is_empty = true
    insert_many 2 1 = 0
    insert_many 2 2 = 1
    insert_many 2 4 = 3
    insert_many 2 0 = 7
    set_len = 1
    len = 7
    is_empty = false
    insert_many 3 0 = 0
    contains 3 = 0
    set_len = 1

    [makes room]
    insert_many 2 7 = 0
    reserve 5 = ()
    has_room 5 = true
    shrink_to_fit = ()
    reserve 18446744073709551615 = Memory
    reserve 432345564227567616 = Memory
    reserve 0 = ()
    contains 2 = 7
    len = 7

    [removes]
    insert_many 5 2 = 0
    remove 5 = 2
    remove 5 = 1
    remove 5 = 0
    is_empty = true
    insert_many 5 10 = 0
    remove_up_to 5 0 = 10
    remove_up_to 5 3 = 7
    remove_up_to 5 10 = 0
    remove_up_to 6 1 = 0

    [removes up to]
    insert_many 42 3 = 0
    remove_up_to 0 1 = 0
    len = 3
    remove_up_to 42 1 = 2
    len = 2
    remove_up_to 42 10 = 0
    len = 0

    [tries takes]
    from_iter [1, 2, 3, 3] = ()
    try_take 2 = Ok(2)
    len = 3
    try_take 3 = Err(Some((3, 2)))
    len = 2
    try_take 3 = Ok(3)
    try_take 4 = Err(None)
    len = 1
    contains 3 = 0

    [takes all]
    from_iter [1, 2, 3, 3] = ()
    take_all 2 = Some((2, 1))
    take_all 3 = Some((3, 2))
    take_all 2 = None
    take_all 3 = None
    len = 1
    clear = ()
    is_empty = true
    set_len = 0
    contains 1 = 0

    [replaces]
    insert_many 7 18446744073709551615 = 0
    replace 7 = 18446744073709551615
    len = 1
    replace 8 = 0
    len = 2
    get 8 = Some((8, 1))
    get 9 = None

    [sets counts]
    set_count 5 0 = 0
    tables = (0, 0, 0)
    set_count 5 3 = 0
    set_count 5 1 = 3
    len = 1
    set_count 6 2 = 0
    get 6 = Some((6, 2))
    set_count 5 0 = 1
    contains 5 = 0
    set_len = 1
    set_count 6 18446744073709551615 = 2
    set_count 7 1 = TooMany
    set_count 7 0 = 0
    set_count 6 18446744073709551614 = 18446744073709551615
    set_count 7 1 = 0
    set_count 7 2 = TooMany
    contains 7 = 1
    len = 18446744073709551615

    [sets counts within a limit]
    with_limit 5 = ()
    set_count 1 6 = TooMany
    tables = (0, 0, 0)
    set_count 1 5 = 0
    set_count 2 1 = TooMany
    set_count 1 6 = TooMany
    set_count 1 4 = 5
    set_count 2 1 = 0
    set_count 2 2 = TooMany
    set_count 1 0 = 4
    set_count 2 5 = 1
    len = 5

    [begins with room]
    capacity = 0
    with_capacity 0 = ()
    has_room 0 = true
    is_empty = true
    with_capacity 10 = ()
    has_room 10 = true
    is_empty = true
    with_capacity 432345564227567617 = Memory";

#[test]
fn calls(rt: HostRuntime) -> Result<(), Fail> {
    make_rows_under_each(rt.alloc(), ROWS)
}
