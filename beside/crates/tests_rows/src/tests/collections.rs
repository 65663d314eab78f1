//! Retaining, extending, collecting and comparing, with the results found by hand.
use std::test::Fail;
use tests_kit::calls::make_rows_under_each;

// `counts` returns how often each of the values occurs. `retain_own_number` keeps at most v occurrences of each value v, and returns how often the
// closure was called.
const ROWS: &str = "
    [adds none]
    insert 100 = 0
    retain_none = ()
    insert_many 1 0 = 0
    extend_many 2:0 = ()
    extend_refs_many 3:0 = ()
    or_insert_many 4 0 = 0
    counts [100, 1, 2, 3, 4] = [0, 0, 0, 0, 0]
    len = 0
    set_len = 0
    iter.count = 0
    set_iter.count = 0

    [extends to the end: what came before stays]
    insert_many 9 18446744073709551613 = 0
    extend [1, 1, 2] = TooMany
    counts [9, 1, 2] = [18446744073709551613, 2, 0]
    len = 18446744073709551615
    set_len = 2

    [extends]
    from_counts 2:1 3:0 2:2 = ()
    extend_refs [2, 4] = ()
    extend_refs_many 4:2 = ()
    extend_many 5:1 = ()
    counts [2, 3, 4, 5] = [4, 0, 3, 1]
    len = 8
    set_len = 3

    [retains]
    insert_many 0 5 = 0
    insert_many 1 4 = 0
    insert_many 2 3 = 0
    insert_many 3 2 = 0
    insert_many 4 1 = 0
    counts [0..=4] = [5, 4, 3, 2, 1]
    len = 15
    set_len = 5
    retain_own_number = 5
    counts [0..=4] = [0, 1, 2, 2, 1]
    len = 6
    set_len = 4

    [begins with nothing]
    default_in = ()
    counts [1] = [0]
    len = 0
    set_len = 0

    [collects]
    from_iter [1, 2, 3, 3] = ()
    counts [1, 2, 3, 4] = [1, 1, 2, 0]
    len = 4
    set_len = 3
    from_iter [] = ()
    counts [1] = [0]
    len = 0
    set_len = 0
    from_counts 1:18446744073709551615 2:0 2:1 = TooMany";

// `insert_each` makes a bag of values inserted one by one. `equals` compares it with another such bag, in both directions.
const EQUAL_ROWS: &str = "
    [values in any order]
    insert_each [] = ()
    equals [] = (true, true)
    equals [1] = (false, false)
    insert_each [1, 2, 3, 3] = ()
    equals [3, 2, 3, 1] = (true, true)
    insert_each [1, 1, 2] = ()
    equals [1, 2, 2] = (false, false)
    insert_each [1, 2] = ()
    equals [1, 2, 2] = (false, false)
    equals [1, 3] = (false, false)
    insert_each [1, 1] = ()
    equals [2, 2] = (false, false)

    [what was there before, and room, make no difference]
    with_capacity 100 = ()
    insert_many 3 7 = 0
    insert_many 2 5 = 0
    take_all 3 = Some((3, 7))
    remove_up_to 2 4 = 1
    equals [1, 2] = (false, false)
    or_insert 1 = 1
    equals [1, 2] = (true, true)";

#[test]
fn collections(rt: HostRuntime) -> Result<(), Fail> {
    make_rows_under_each(rt.alloc(), ROWS)
}

#[test]
fn equal_bags(rt: HostRuntime) -> Result<(), Fail> {
    make_rows_under_each(rt.alloc(), EQUAL_ROWS)
}
