//! What no clause says: which words of Unicode, folds and matches there are, what is wrong with a bad line, and how counts are written.
//! What is wanted was found by hand, and by `tr`, `sort` and `uniq -c` where these find it. Each row is tried under two hash states.
use crate::texts::is_text;
use hashbag::{FixedState, HashBag};
use hashbag_words_lib::choice::{Order, chosen};
use hashbag_words_lib::counter::TextCounter;
use hashbag_words_lib::errors::InputFault;
use hashbag_words_lib::lines::{BadLines, LinesRead};
use hashbag_words_lib::row_counter::RowCounter;
use hashbag_words_lib::row_text::RowText;
use hashbag_words_lib::rows::RowForm;
use hashbag_words_lib::rule::{Pieces, Rule, Separator};
use hashbag_words_lib::shards::Shard;
use hashbag_words_lib::writing::Format;
use regex::Regex;
use std::alloc::Global;
use std::hash::{BuildHasher, RandomState};
use std::io;
use std::test::Fail;

// What is counted, the input, and the counts as TSV.
const COUNTS: [(&str, &str, &str); 9] = [
    ("words", "", ""),
    (
        "words",
        "to be or not to be",
        "be\t2\nnot\t1\nor\t1\nto\t2\n",
    ),
    (
        "words",
        "\u{feff}b a\r\n\r\n\n\u{2003}b\u{a0}c\u{feff}",
        "a\t1\nb\t2\nc\u{feff}\t1\n",
    ),
    ("lines", "b\na\r\n\nb", "\t1\na\t1\nb\t2\n"),
    ("lines", "a\tb\\c\rd\n", "a\\tb\\\\c\\rd\t1\n"),
    (
        "unicode",
        "The can't-stop cat: 3.14!",
        "3.14\t1\nThe\t1\ncan't\t1\ncat\t1\nstop\t1\n",
    ),
    ("fold", "Straße STRASSE ſtrasse", "strasse\t3\n"),
    ("[a-z][0-9]+", "a1 b22 a1c\nb\n2", "a1\t2\nb22\t1\n"),
    ("x*", "axxb\nx", "x\t1\nxx\t1\n"),
];

// A file of counts, whether bad lines are skipped, and what adding it up gives: the counts, or the number of the line and what is
// wrong with it.
const MERGES: [(&[u8], bool, &str); 20] = [
    (b"a\t2\nb\t1\r\na\t3\n", false, "a\t5\nb\t1\n"),
    (b"\\t\\n\\r\\\\\t007\n", false, "\\t\\n\\r\\\\\t7\n"),
    (b"a\t0\n\t2\n", false, "\t2\n"),
    (b"a\t+2\na\t1\n", false, "a\t3\n"),
    (b"\xef\xbb\xbfa\t1\na\t1\n", false, "a\t2\n"),
    (b"a\t1\n\xef\xbb\xbfa\t1\n", false, "a\t1\n\u{feff}a\t1\n"),
    (b"a\t1\n\nb\t1\n", false, "2: no tab"),
    (b"a\t1\nb 1\n", false, "2: no tab"),
    (b"a\tb\t1\n", false, "1: no count"),
    (b"a\t\n", false, "1: no count"),
    (b"a\t-1\n", false, "1: no count"),
    (b"a\t 1\n", false, "1: no count"),
    (b"a\t1 \n", false, "1: no count"),
    (b"a\t18446744073709551616\n", false, "1: no count"),
    (b"a\t1\na\\q\t1\n", false, "2: bad escape"),
    (b"a\t1\na\\\t1\n", false, "2: bad escape"),
    (
        b"a\t1\n\xff\t1\n",
        false,
        "2: not UTF-8; if it is Windows-1252, `--encoding Windows-1252` reads it",
    ),
    (b"a\t1\n\xff\t1\nb\nc\t4\n", true, "a\t1\nc\t4\n"),
    (b"a\t1\nb\t1", false, "2: no line feed"),
    (b"a\t1\nb\t1", true, "a\t1\n"),
];

// The same of what `uniq -c` writes.
const UNIQ_MERGES: [(&[u8], bool, &str); 9] = [
    (
        b"      2 a\n1234567 b  c \n",
        false,
        "a\t2\nb  c \t1234567\n",
    ),
    (
        b"12345678 a\tb\n      1 \n",
        false,
        "\t1\na\\tb\t12345678\n",
    ),
    (b"\xef\xbb\xbf      1 a\\t\r\n", false, "a\\\\t\t1\n"),
    (b"      1 a\n      a\n", false, "2: no count"),
    (b"      1\n", false, "1: no count"),
    (b"\n", false, "1: no count"),
    (b"      1 a\n      1 b", false, "2: no line feed"),
    (b"      1 a\na\t1\n      2 a\n", true, "a\t3\n"),
    (b"      0 a\n      1 b\n0 b\n", false, "b\t1\n"),
];

// What separates fields, the index of one, the input, and the counts as TSV: those of `awk '{ print $N }'` if it is blanks, and else of `cut -f N`, of
// the lines that have the field.
const FIELDS: [(Separator, usize, &str, &str); 12] = [
    (Separator::Blanks, 0, "b a\na\n\n", "a\t1\nb\t1\n"),
    (Separator::Blanks, 1, "b a\na\n\n", "a\t1\n"),
    (
        Separator::Blanks,
        1,
        "\u{feff} a  \t b \r\n\tb\tb",
        "b\t2\n",
    ),
    (Separator::Blanks, 2, "a b \na b\t\n", ""),
    (Separator::Blanks, 0, " \t \n", ""),
    (
        Separator::Blanks,
        0,
        "\u{a0}é\u{2003}b c\n",
        "\u{a0}é\u{2003}b\t1\n",
    ),
    (
        Separator::Char(','),
        0,
        "a,b\n,b\nab\n\n",
        "\t2\na\t1\nab\t1\n",
    ),
    (
        Separator::Char(','),
        1,
        "a,b\na,,c\nab\na,\n",
        "\t2\nb\t1\n",
    ),
    (Separator::Char('\t'), 2, "a b\t\t c \t", " c \t1\n"),
    (Separator::Char('\t'), 3, "a b\t\t c \t\nb", "\t1\n"),
    (Separator::Char(' '), 1, "a  b\n", "\t1\n"),
    (Separator::Char('é'), 1, "aéb\n", "b\t1\n"),
];

fn written<S: BuildHasher + Drop>(
    alloc: Global,
    bag: &HashBag<String, S>,
    format: Format,
) -> Result<String, Fail> {
    let rows = chosen(alloc, bag, Order::Ascending)?;
    let mut out = Vec::new(alloc);
    let _bytes = io::copy(&mut RowText::new(alloc, format, rows)?, &mut out)?;
    Ok(String::from_utf8(out)?)
}

fn counted<S: BuildHasher + Drop>(
    alloc: Global,
    state: S,
    by: &str,
    input: &str,
) -> Result<String, Fail> {
    let pattern = Regex::new(alloc, by)?;
    let pieces = match by {
        "words" | "fold" => Pieces::Words,
        "unicode" => Pieces::UnicodeWords,
        "lines" => Pieces::Lines,
        _ => Pieces::Matches(&pattern),
    };
    counted_by(alloc, state, pieces, by == "fold", input)
}

// The counts of the pieces of an input.
fn counted_by<S: BuildHasher + Drop>(
    alloc: Global,
    state: S,
    pieces: Pieces<'_>,
    fold: bool,
    input: &str,
) -> Result<String, Fail> {
    let lossy = false;
    let rule = Rule {
        pieces,
        fold,
        lossy,
    };
    let bag = HashBag::with_hasher(alloc, state);
    let mut counter = TextCounter::new(alloc, bag, rule, BadLines::Rejected);
    counter.feed(input.as_bytes())?;
    counter.end_text()?;
    written(alloc, counter.sink(), Format::Tsv)
}

#[test]
fn counts_of_text(rt: HostRuntime) -> Result<(), Fail> {
    let alloc = rt.alloc();
    let state = RandomState::new(&rt)?;
    for (by, input, wanted) in &COUNTS {
        is_text(&counted(alloc, FixedState::new(), by, input)?, wanted)?;
        is_text(&counted(alloc, state, by, input)?, wanted)?;
    }
    Ok(())
}

#[test]
fn fields_of_text(rt: HostRuntime) -> Result<(), Fail> {
    let alloc = rt.alloc();
    let state = RandomState::new(&rt)?;
    for (separator, index, input, wanted) in &FIELDS {
        let pieces = Pieces::Field(*index, *separator);
        is_text(
            &counted_by(alloc, FixedState::new(), pieces, false, input)?,
            wanted,
        )?;
        is_text(&counted_by(alloc, state, pieces, false, input)?, wanted)?;
    }
    is_text(
        &counted_by(
            alloc,
            state,
            Pieces::Field(1, Separator::Blanks),
            true,
            "a Straße\nb STRASSE\n",
        )?,
        &"strasse\t2\n",
    )
}

// Adds a file, whose first byte is a block of its own.
fn add_file<S: BuildHasher + Drop>(
    counter: &mut RowCounter<HashBag<String, S>>,
    file: &[u8],
) -> Result<(), InputFault> {
    let (first, rest) = file.split_at(file.len().min(1));
    counter.feed(first)?;
    counter.feed(rest)?;
    counter.end_file()?;
    Ok(())
}

fn merged<S: BuildHasher + Drop>(
    alloc: Global,
    state: S,
    form: RowForm,
    file: &[u8],
    is_skipped: bool,
) -> Result<String, Fail> {
    let bag = HashBag::with_hasher(alloc, state);
    let bad_lines = if is_skipped {
        BadLines::Skipped
    } else {
        BadLines::Rejected
    };
    let mut counter = RowCounter::new(alloc, bag, form, bad_lines);
    match add_file(&mut counter, file) {
        Ok(()) => written(alloc, counter.sink(), Format::Tsv),
        Err(fault) => {
            let line = counter.reading().line;
            Ok(format!(in alloc; "{line}: {fault}")?)
        }
    }
}

fn merges(rt: &HostRuntime, form: RowForm, rows: &[(&[u8], bool, &str)]) -> Result<(), Fail> {
    let alloc = rt.alloc();
    let state = RandomState::new(rt)?;
    for (file, is_skipped, wanted) in rows {
        let fixed = merged(alloc, FixedState::new(), form, file, *is_skipped)?;
        is_text(&fixed, wanted)?;
        is_text(&merged(alloc, state, form, file, *is_skipped)?, wanted)?;
    }
    Ok(())
}

#[test]
fn counts_added_up(rt: HostRuntime) -> Result<(), Fail> {
    merges(&rt, RowForm::Tsv, &MERGES)?;
    merges(&rt, RowForm::Uniq, &UNIQ_MERGES)
}

// Texts that are read as a shard, its index and how many there are.
const SHARDS: [(&str, u64, u64); 4] = [
    ("1/1", 0, 1),
    ("1/3", 0, 3),
    ("3/3", 2, 3),
    (
        "18446744073709551614/18446744073709551615",
        18446744073709551613,
        18446744073709551615,
    ),
];

// Texts that aren't.
const NO_SHARDS: [&str; 12] = [
    "", "1", "1/", "/1", "0/3", "4/3", "1/0", "a/b", "1/2/3", " 1/3", "1/3 ", "1 / 3",
];

#[test]
fn shards_of_texts(rt: HostRuntime) {
    for (text, index, of) in &SHARDS {
        let shard = Shard {
            index: *index,
            of: *of,
        };
        assert!(rt; Shard::of_text(*text) == Some(shard), "{text:?}");
    }
    for text in &NO_SHARDS {
        assert!(rt; Shard::of_text(*text).is_none(), "{text:?}");
    }
}

// A text, whether bytes that aren't UTF-8 are replaced, what a bad line does, and the counts of its lines by `printf` and `sort | uniq -c`; or
// the number of the line that is bad. Then how many lines there are, how many are skipped, and in how many bytes are replaced.
type Text = (&'static [u8], &'static str, &'static str, [u64; 3]);

const TEXTS: [Text; 12] = [
    (b"", "refused", "", [0, 0, 0]),
    (b"\n", "refused", "\t1\n", [1, 0, 0]),
    (b"\r\n\r", "refused", "\t1\n\\r\t1\n", [2, 0, 0]),
    (b"a", "refused", "a\t1\n", [1, 0, 0]),
    (b"a\rb\r\n\0\n", "refused", "\0\t1\na\\rb\t1\n", [2, 0, 0]),
    (
        b"\xef\xbb\xbfb\r\n\r\n\n\xef\xbb\xbfb\nb\r",
        "refused",
        "\t2\nb\t2\nb\\r\t1\n",
        [5, 0, 0],
    ),
    (b"\xef\xbb\n\xbf\n", "skipped", "", [2, 2, 0]),
    (b"a\nb\na\xff\nb\n", "refused", "3", [3, 0, 0]),
    (b"a\nb\na\xff\nb\n", "skipped", "a\t1\nb\t2\n", [4, 1, 0]),
    (
        b"a\nb\na\xff\nb\n",
        "replaced",
        "a\t1\na\u{fffd}\t1\nb\t2\n",
        [4, 0, 1],
    ),
    (b"a\n\xe2\x82", "refused", "2", [2, 0, 0]),
    (b"a\n\xe2\x82", "replaced", "a\t1\n\u{fffd}\t1\n", [2, 0, 1]),
];

// A counter of lines.
fn counter_of(alloc: Global, how: &str) -> TextCounter<'static, HashBag<String, FixedState>> {
    let rule = Rule {
        pieces: Pieces::Lines,
        fold: false,
        lossy: how == "replaced",
    };
    let bad_lines = match how {
        "skipped" => BadLines::Skipped,
        _ => BadLines::Rejected,
    };
    let bag = HashBag::with_hasher(alloc, FixedState::new());
    TextCounter::new(alloc, bag, rule, bad_lines)
}

// Feeds blocks, and ends the text.
fn feed_all(
    counter: &mut TextCounter<'static, HashBag<String, FixedState>>,
    blocks: &[&[u8]],
) -> Result<LinesRead, InputFault> {
    for block in blocks {
        counter.feed(*block)?;
    }
    counter.end_text()
}

// What is counted of a text that comes in these blocks, or the number of its bad line; and how its lines were read.
fn fed(alloc: Global, how: &str, blocks: &[&[u8]]) -> Result<(String, [u64; 3]), Fail> {
    let mut counter = counter_of(alloc, how);
    match feed_all(&mut counter, blocks) {
        Ok(reading) => {
            let counts = [reading.line, reading.skipped, reading.replaced];
            Ok((written(alloc, counter.sink(), Format::Tsv)?, counts))
        }
        Err(_) => {
            let line = counter.reading().line;
            Ok((format!(in alloc; "{line}")?, [line, 0, 0]))
        }
    }
}

// The bytes of a text between two places.
fn part(text: &[u8], from: usize, end: usize) -> &[u8] {
    text.get(from..end).unwrap_or(&[])
}

// Checks what is counted of a text in three blocks.
fn is_fed(alloc: Global, row: Text, i: usize, j: usize) -> Result<(), Fail> {
    let (text, how, wanted, counts) = row;
    let blocks = [
        part(text, 0, i),
        part(text, i, j),
        part(text, j, text.len()),
    ];
    let (found, read) = fed(alloc, how, blocks.as_slice())?;
    is_text(&found, &wanted)?;
    if read == counts {
        return Ok(());
    }
    Err(Fail::new(format_args!("{read:?}, not {counts:?}: {text:?} in {i}, {j}")))
}

// Wherever a text is cut, each line of it is counted once.
#[test]
fn blocks(rt: HostRuntime) -> Result<(), Fail> {
    for row in &TEXTS {
        for j in 0..=row.0.len() {
            for i in 0..=j {
                is_fed(rt.alloc(), *row, i, j)?;
            }
        }
    }
    Ok(())
}

// The last line of a text isn't joined to the first one of the next.
#[test]
fn texts_in_turn(rt: HostRuntime) -> Result<(), Fail> {
    let mut counter = counter_of(rt.alloc(), "refused");
    for (text, lines) in [("a\nb", 2), ("c", 1), ("", 0), ("b\nd\n", 2), ("c\nd", 2)] {
        counter.feed(text.as_bytes())?;
        assert_eq!(rt; counter.end_text()?.line, lines);
    }
    is_text(
        &written(rt.alloc(), counter.sink(), Format::Tsv)?,
        &"a\t1\nb\t2\nc\t2\nd\t2\n",
    )
}

// A form, and how these counts are written in it: `a"` and a tab once, `the` three times.
const FORMS: [(&str, &str); 3] = [
    ("tsv", "a\"\\t\t1\nthe\t3\n"),
    ("uniq", "      1 a\"\t\n      3 the\n"),
    ("json", "[[\"a\\\"\\t\",1],[\"the\",3]]\n"),
];

fn format_of(word: &str) -> Format {
    match word {
        "json" => Format::Json,
        "uniq" => Format::Uniq,
        _ => Format::Tsv,
    }
}

#[test]
fn forms(rt: HostRuntime) -> Result<(), Fail> {
    let alloc = rt.alloc();
    let mut bag = HashBag::with_hasher(alloc, FixedState::new());
    bag.insert_many(String::from_str(alloc, "the")?, 3)?;
    bag.insert(String::from_str(alloc, "a\"\t")?)?;
    for (form, wanted) in &FORMS {
        is_text(&written(alloc, &bag, format_of(form))?, wanted)?;
    }
    Ok(())
}
