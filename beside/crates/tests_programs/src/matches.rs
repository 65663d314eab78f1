//! How the rows of matched lists are written. What is wanted was found by hand.
use crate::texts::are_text;
use hashbag::{BagError, FixedState};
use hashbag_csv::delimiter::Delimiter;
use hashbag_csv::forms::Form;
use hashbag_csv::scale::{Mark, Scale};
use hashbag_match_lib::matching::match_tallies;
use hashbag_match_lib::output::{Layout, text_of};
use hashbag_match_lib::shown::{Only, shown_rows};
use hashbag_match_lib::tally::{Tally, empty_tally};
use std::alloc::{AllocError, Global};
use std::collections::HashMap;
use std::hash::{BuildHasher, RandomState};
use std::test::Fail;

// What was ordered and what was delivered, an article's fields separated by bars; the key columns, decimals, which rows and how; and what
// is then written.
type Row = (
    &'static [(&'static str, usize)],
    &'static [(&'static str, usize)],
    &'static [&'static str],
    u32,
    &'static str,
    &'static str,
    &'static str,
);

const ROWS: [Row; 15] = [
    (
        &[],
        &[],
        &["article"],
        0,
        "all",
        "table",
        "ARTICLE  ORDERED  DELIVERED  MISSING  SURPLUS\nno article of 0 differs\n",
    ),
    (
        &[("nut", 0)],
        &[("bolt", 0), ("nut", 0)],
        &["article"],
        0,
        "all",
        "table",
        "ARTICLE  ORDERED  DELIVERED  MISSING  SURPLUS
bolt           0          0        0        0
nut            0          0        0        0
no article of 2 differs
",
    ),
    (
        &[("a", 3), ("b", 1), ("c", 18446744073709551611)],
        &[("b", 1), ("c", 18446744073709551611), ("a", 3)],
        &["article"],
        0,
        "all",
        "table",
        "ARTICLE               ORDERED             DELIVERED  MISSING  SURPLUS
a                           3                     3        0        0
b                           1                     1        0        0
c        18446744073709551611  18446744073709551611        0        0
no article of 3 differs
",
    ),
    (
        &[("x", 18446744073709551614), ("y", 1)],
        &[("z", 18446744073709551615)],
        &["article"],
        0,
        "all",
        "table",
        "ARTICLE               ORDERED             DELIVERED               MISSING               SURPLUS
x        18446744073709551614                     0  18446744073709551614                     0
y                           1                     0                     1                     0
z                           0  18446744073709551615                     0  18446744073709551615
3 articles differ: 18446744073709551615 missing, 18446744073709551615 surplus
",
    ),
    (
        &[("b\u{1b}\n", 3), ("a", 1), ("b\u{1b}\n", 4)],
        &[("a", 1), ("b\u{1b}\n", 10000000)],
        &["article"],
        0,
        "all",
        "table",
        "ARTICLE    ORDERED  DELIVERED  MISSING  SURPLUS
a                1          1        0        0
b\\u{1b}\\n        7   10000000        0  9999993
1 article differs: 0 missing, 9999993 surplus
",
    ),
    (
        &[("x", 2), ("y", 1), ("\u{30cd}\u{30b8}\u{30cd}\u{30b8}", 7)],
        &[("z", 1), ("y", 1)],
        &["article"],
        0,
        "missing",
        "table",
        "ARTICLE   ORDERED  DELIVERED  MISSING  SURPLUS
x               2          0        2        0
\u{30cd}\u{30b8}\u{30cd}\u{30b8}        7          0        7        0
3 articles differ: 9 missing, 1 surplus
",
    ),
    (
        &[("x", 2)],
        &[("wider than x, and hidden", 12345678901)],
        &["article"],
        0,
        "missing",
        "table",
        "ARTICLE  ORDERED  DELIVERED  MISSING  SURPLUS
x              2          0        2        0
2 articles differ: 2 missing, 12345678901 surplus
",
    ),
    (
        &[("a|L10", 150), ("a|L9", 5), ("a|", 1)],
        &[("a|L10", 50), ("a|L9", 5)],
        &["article", "l\u{f6}s"],
        2,
        "all",
        "table",
        "ARTICLE  L\u{d6}S  ORDERED  DELIVERED  MISSING  SURPLUS
a                0.01       0.00     0.01     0.00
a        L10     1.50       0.50     1.00     0.00
a        L9      0.05       0.05     0.00     0.00
2 articles differ: 1.01 missing, 0.00 surplus
",
    ),
    (
        &[("a|L8", 150)],
        &[("a;|L8", 5)],
        &["sku", "lot"],
        2,
        "all",
        "csv",
        "sku;lot;ordered;delivered;missing;surplus
a;L8;1.50;0.00;1.50;0.00
\"a;\";L8;0.00;0.05;0.00;0.05
",
    ),
    (
        &[("x", 2), ("y", 1)],
        &[("y", 1)],
        &["article"],
        0,
        "surplus",
        "csv",
        "article;ordered;delivered;missing;surplus\n",
    ),
    (
        &[("a; \"b\"", 18446744073709551615), ("y", 0)],
        &[("c\nd", 18446744073709551615)],
        &["article"],
        0,
        "all",
        "csv",
        "article;ordered;delivered;missing;surplus
\"a; \"\"b\"\"\";18446744073709551615;0;18446744073709551615;0
\"c\nd\";0;18446744073709551615;0;18446744073709551615
y;0;0;0;0
",
    ),
    (
        &[("x", 2), ("y", 1)],
        &[("y", 1), ("z", 3), ("x", 1)],
        &["article"],
        0,
        "differing",
        "csv",
        "article;ordered;delivered;missing;surplus\nx;2;1;1;0\nz;0;3;0;3\n",
    ),
    (
        &[("x", 2)],
        &[("x", 2)],
        &["article"],
        0,
        "differing",
        "json",
        "[]\n",
    ),
    (
        &[("a \"b\"", 2)],
        &[("\u{e4}", 1)],
        &["article"],
        0,
        "all",
        "json",
        "[{\"article\":\"a \\\"b\\\"\",\"ordered\":2,\"delivered\":0,\"missing\":2,\"surplus\":0},{\"article\":\"\u{e4}\",\"ordered\":0,\"delivered\":1,\"missing\":0,\"surplus\":1}]\n",
    ),
    (
        &[("a|1", 2)],
        &[],
        &["sku", "lot"],
        1,
        "all",
        "json",
        "[{\"sku\":\"a\",\"lot\":\"1\",\"ordered\":\"0.2\",\"delivered\":\"0.0\",\"missing\":\"0.2\",\"surplus\":\"0.0\"}]\n",
    ),
];

// The article whose fields are the parts of a text between bars.
fn article_of(alloc: Global, text: &str) -> Result<Vec<String>, AllocError> {
    let mut fields = Vec::new(alloc);
    for field in text.split('|') {
        fields.push(String::from_str(alloc, field)?)?;
    }
    Ok(fields)
}

// The tally of a list under this hash state.
fn tally_of<S: BuildHasher + Copy + Drop>(
    alloc: Global,
    state: S,
    texts: &[(&str, usize)],
) -> Result<Tally<Vec<String>, S>, BagError> {
    let mut tally = empty_tally(alloc, state);
    for (text, number) in texts {
        tally.add(article_of(alloc, *text)?, *number)?;
    }
    Ok(tally)
}

// What is written of two tallies that are matched.
fn text_of_match<S: BuildHasher + Copy + Drop>(
    alloc: Global,
    state: S,
    ordered: &Tally<Vec<String>, S>,
    delivered: &Tally<Vec<String>, S>,
    only: Only,
    layout: Layout<'_>,
    form: Form,
) -> Result<Vec<u8>, BagError> {
    let matched = match_tallies(alloc, ordered, delivered)?;
    let firsts: HashMap<Vec<String>, Vec<String>, S> = HashMap::with_hasher(alloc, state);
    let shown = shown_rows(alloc, only, &matched.rows, &firsts)?;
    Ok(text_of(alloc, &shown, &matched.totals, layout, form)?)
}

// What is written of two lists that are matched under this hash state.
fn written<S: BuildHasher + Copy + Drop>(
    alloc: Global,
    state: S,
    ordered: &[(&str, usize)],
    delivered: &[(&str, usize)],
    only: Only,
    layout: Layout<'_>,
    form: Form,
) -> Result<Vec<u8>, BagError> {
    let ordered = tally_of(alloc, state, ordered)?;
    let delivered = tally_of(alloc, state, delivered)?;
    text_of_match(alloc, state, &ordered, &delivered, only, layout, form)
}

fn only_of(word: &str) -> Only {
    match word {
        "missing" => Only::Missing,
        "surplus" => Only::Surplus,
        "differing" => Only::Differing,
        _ => Only::All,
    }
}

fn form_of(word: &str) -> Form {
    match word {
        "csv" => Form::Csv,
        "json" => Form::Json,
        _ => Form::Table,
    }
}

// Checks that what a row wants is written under this hash state.
fn is_written<S: BuildHasher + Copy + Drop>(
    alloc: Global,
    state: S,
    row: &Row,
) -> Result<(), Fail> {
    let (ordered, delivered, keys, decimals, only, form, wanted) = *row;
    let layout = Layout {
        keys,
        carried: &[],
        scale: Scale::new(decimals, Mark::Point).unwrap_or(Scale::whole()),
        delimiter: Delimiter::Semicolon,
    };
    let only = only_of(only);
    let text = written(alloc, state, ordered, delivered, only, layout, form_of(form))?;
    are_text(&text, wanted)
}

#[test]
fn rows_are_written(rt: HostRuntime) -> Result<(), Fail> {
    let state = RandomState::new(&rt)?;
    for row in &ROWS {
        is_written(rt.alloc(), FixedState::new(), row)?;
        is_written(rt.alloc(), state, row)?;
    }
    Ok(())
}
