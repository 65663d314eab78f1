//! Odd inputs of the program, and the cause of each exit status. If the reader, the writer and all allocations succeed, the status is the one of the
//! input's row: 0 or 2, and 3 only if a step asks for more distinct values than a bag may have. It is 4 exactly if a read or a write fails.
//! `tests/crates/refused_memory.sh` lets allocations fail: only then is the status of another input 3.
use crate::streams::{Pieces, Sink};
use hashbag_run_lib::execute::execute;
use std::alloc::Global;
use std::process::Abort;
use std::test::Fail;
use tests_kit::rows_of;
use tests_kit::texts::halves;

// Each row: an input, the status, and what is written. `\n` is a line feed, and `\x` with two digits is any byte. `..` at the end are the trees of
// two empty bags. All was written by hand.
const ROWS: &str = r#"
    # nothing to do, and the last line without its line feed
    | 0 | ..
    \n | 0 | ..
    \n\n\n | 0 | ..
    a count 5 | 0 | a count 0\n..
    \n\na count 5\n\n | 0 | a count 0\n..

    # carriage returns, other spaces, and bytes that are no letters
    \x0d | 2 | bad line 1\n
    \x0d\n | 2 | bad line 1\n
    a count 5\x0d\n | 2 | bad line 1\n
    a count\x0d 5\n | 2 | bad line 1\n
    a count 5\x0da count 5\n | 2 | bad line 1\n
    a count 5\n\x0d\na count 5\n | 2 | bad line 2\n
    \x00 | 2 | bad line 1\n
    a count 5\x00\n | 2 | bad line 1\n
    a\x0bcount 5\n | 2 | bad line 1\n
    a\x09count 5\n | 2 | bad line 1\n
    a count\x095\n | 2 | bad line 1\n
    a count 5\x0c\n | 2 | bad line 1\n
    a\xc2\xa0count 5\n | 2 | bad line 1\n
    \xef\xbb\xbfa count 5\n | 2 | bad line 1\n
    a count 5\n\xff | 2 | bad line 2\n
    a count \xff\n | 2 | bad line 1\n
    a count \xef\xbc\x95\n | 2 | bad line 1\n
    a count \xd9\xa5\n | 2 | bad line 1\n
    \x20\n | 2 | bad line 1\n
    \x20a count 5\n | 2 | bad line 1\n
    a  count 5\n | 2 | bad line 1\n
    a count  5\n | 2 | bad line 1\n
    a count 5\x20\n | 2 | bad line 1\n

    # numbers
    a count +5\n | 2 | bad line 1\n
    a count -0\n | 2 | bad line 1\n
    a count 5.0\n | 2 | bad line 1\n
    a count 0x5\n | 2 | bad line 1\n
    a count 1_0\n | 2 | bad line 1\n
    a count 1e3\n | 2 | bad line 1\n
    a count 1,000\n | 2 | bad line 1\n
    a count five\n | 2 | bad line 1\n
    a count "5"\n | 2 | bad line 1\n
    a insert 007\na all 7\n | 0 | a count 0\na taken 7 1\n..
    a insert 00000000000000000005\na all 5\n | 0 | a count 0\na taken 5 1\n..
    a count 000000000000000000005\n | 2 | bad line 1\n
    a insert 18446744073709551615\na all 18446744073709551615\n | 0 | a count 0\na taken 18446744073709551615 1\n..
    a count 18446744073709551616\n | 2 | bad line 1\n
    a count 99999999999999999999\n | 2 | bad line 1\n

    # bags, verbs, and how many numbers they have
    A count 5\n | 2 | bad line 1\n
    a Count 5\n | 2 | bad line 1\n
    a COUNT 5\n | 2 | bad line 1\n
    ab count 5\n | 2 | bad line 1\n
    count 5\n | 2 | bad line 1\n
    a drain\n | 2 | bad line 1\n
    a contains 5\n | 2 | bad line 1\n
    a\n | 2 | bad line 1\n
    b\n | 2 | bad line 1\n
    a count\n | 2 | bad line 1\n
    a count 5 5\n | 2 | bad line 1\n
    a many 5\n | 2 | bad line 1\n
    a many 5 1 1\n | 2 | bad line 1\n
    a clear 5\n | 2 | bad line 1\n
    a shrink 0\n | 2 | bad line 1\n
    a limit\n | 2 | bad line 1\n

    # JSON, comments, and the program's own output
    [] | 2 | bad line 1\n
    [[5,1]]\n | 2 | bad line 1\n
    {"limit":3,"pairs":[]}\n | 2 | bad line 1\n
    \x23 five\n | 2 | bad line 1\n
    a count 5 # five\n | 2 | bad line 1\n
    a count 0\na done\n | 2 | bad line 2\n
    outer 5 1 0\n | 2 | bad line 1\n
    a json [[5,1]]\n | 2 | bad line 1\n

    # a bad line last
    a insert 1\na insert 2\nx | 2 | bad line 3\n
    a insert 1\n\n\na insert\nb\n | 2 | bad line 4\n
    a reserve 18446744073709551615\nx\n | 2 | bad line 2\n

    # pairs of retain: odd, none, repeated
    a retain 1\n | 2 | bad line 1\n
    a retain 1 2 3\n | 2 | bad line 1\n
    a retain\x20\n | 2 | bad line 1\n
    a retain\n | 0 | a done\n..
    a many 1 5\na retain\na count 1\n | 0 | a count 0\na done\na count 0\n..
    a many 1 5\na many 2 5\na retain 1 2 1 4\na count 1\na count 2\na clear\n | 0 | a count 0\na count 0\na done\na count 2\na count 0\na done\n..
    a many 1 5\na retain 1 0 1 5\na count 1\n | 0 | a count 0\na done\na count 0\n..
    a many 1 5\na retain 9 9 1 18446744073709551615\na all 1\na count 9\n | 0 | a count 0\na done\na taken 1 5\na count 0\n..

    # room
    a reserve 0\na reserve 1000\na insert 7\na shrink\na clear\na shrink\n | 0 | a done\na done\na count 0\na done\na done\na done\n..
"#;

// Inputs without a bad line, and what is written.
const LONG: [(&str, &str); 20] = [
    // counts of 0, and values that don't occur
    (
        "a try 1\na all 1\na upto 1 0\na remove 1\na set 1 0\na many 1 0\na or 1 0\n",
        "a absent\na absent\na count 0\na count 0\na absent\na count 0\na count 0\na json []\n\
            b json []\n",
    ),
    (
        "a many 1 2\na upto 1 0\na try 1\na try 1\na try 1\n",
        "a count 0\na count 2\na left 2\na taken 1 1\na absent\na json []\nb json []\n",
    ),
    (
        "a insert 1\na set 1 0\na count 1\na or 1 3\na set 1 2\na all 1\n",
        "a count 0\na done\na count 0\na count 3\na done\na taken 1 2\na json []\nb json []\n",
    ),
    // the greatest total
    (
        "a many 1 18446744073709551615\na insert 1\na insert 2\na many 2 0\na clear\n",
        "a count 0\na too many\na too many\na count 0\na done\na json []\nb json []\n",
    ),
    (
        "a many 1 18446744073709551615\na replace 2\na replace 1\na replace 2\na clear\n",
        "a count 0\na too many\na count 18446744073709551615\na count 0\na done\na json []\nb json []\n",
    ),
    (
        "a many 1 18446744073709551614\na set 1 18446744073709551615\na or 2 1\na or 2 0\na or 1 9\n\
            a set 2 1\na all 1\n",
        "a count 0\na done\na too many\na count 0\na count 18446744073709551615\na absent\n\
            a taken 1 18446744073709551615\na json []\nb json []\n",
    ),
    (
        "a insert 1\na insert 2\na set 1 18446744073709551615\na set 1 18446744073709551614\na clear\n",
        "a count 0\na count 0\na too many\na done\na done\na json []\nb json []\n",
    ),
    (
        "a many 1 18446744073709551615\na upto 1 18446744073709551615\n",
        "a count 0\na count 0\na json []\nb json []\n",
    ),
    // joins at the ends of their numbers, and in order of the values
    (
        "a many 1 9223372036854775808\n",
        "a count 0\nouter 1 9223372036854775808 0\ndifference 1 9223372036854775808\n\
            signed 1 9223372036854775807\nnot_in 1 9223372036854775808\na json [[1,9223372036854775808]]\n\
            b json []\n",
    ),
    (
        "b many 1 9223372036854775808\n",
        "b count 0\nouter 1 0 9223372036854775808\nsigned 1 -9223372036854775808\na json []\n\
            b json [[1,9223372036854775808]]\n",
    ),
    (
        "b many 1 9223372036854775807\n",
        "b count 0\nouter 1 0 9223372036854775807\nsigned 1 -9223372036854775807\na json []\n\
            b json [[1,9223372036854775807]]\n",
    ),
    (
        "b many 1 9223372036854775809\n",
        "b count 0\nouter 1 0 9223372036854775809\nsigned 1 -9223372036854775808\na json []\n\
            b json [[1,9223372036854775809]]\n",
    ),
    (
        "a many 1 18446744073709551615\nb many 1 18446744073709551615\n",
        "a count 0\nb count 0\nouter 1 18446744073709551615 18446744073709551615\nsigned 1 0\n\
            a json [[1,18446744073709551615]]\nb json [[1,18446744073709551615]]\n",
    ),
    (
        "a many 1 18446744073709551615\nb insert 1\n",
        "a count 0\nb count 0\nouter 1 18446744073709551615 1\ndifference 1 18446744073709551614\n\
            signed 1 9223372036854775807\na json [[1,18446744073709551615]]\nb json [[1,1]]\n",
    ),
    (
        "a insert 18446744073709551615\nb insert 10\na insert 9\nb insert 0\n",
        "a count 0\na count 0\nb count 0\nb count 0\nouter 0 0 1\nouter 9 1 0\nouter 10 0 1\n\
            outer 18446744073709551615 1 0\ndifference 9 1\ndifference 18446744073709551615 1\n\
            signed 0 -1\nsigned 9 1\nsigned 10 -1\nsigned 18446744073709551615 1\nnot_in 9 1\n\
            not_in 18446744073709551615 1\na json [[9,1],[18446744073709551615,1]]\nb json [[0,1],[10,1]]\n",
    ),
    // limits, and back
    (
        "a limit 0\n",
        "a done\na json {\"limit\":0,\"pairs\":[]}\nb json []\n",
    ),
    (
        "a limit 0\na insert 1\na many 1 0\na or 1 0\na or 1 1\na replace 1\n\
            a limit 18446744073709551615\na insert 1\na clear\n",
        "a done\na too many\na count 0\na count 0\na too many\na too many\na done\na count 0\na done\n\
            a json []\nb json []\n",
    ),
    (
        "a many 1 5\na limit 4\na limit 5\na insert 1\na remove 1\na limit 4\n",
        "a count 0\na below total\na done\na too many\na count 5\na done\nouter 1 4 0\ndifference 1 4\n\
            signed 1 4\nnot_in 1 4\na json {\"limit\":4,\"pairs\":[[1,4]]}\nb json []\n",
    ),
    (
        "a limit 3\na many 1 3\na clear\na many 2 4\na many 2 3\na limit 18446744073709551615\na all 2\n",
        "a done\na count 0\na done\na too many\na count 0\na done\na taken 2 3\na json []\nb json []\n",
    ),
    (
        "b limit 18446744073709551614\nb many 1 18446744073709551615\nb many 1 18446744073709551614\n\
            b clear\n",
        "b done\nb too many\nb count 0\nb done\na json []\n\
            b json {\"limit\":18446744073709551614,\"pairs\":[]}\n",
    ),
];

// Rows with a step that asks for more than 3 * 2^57 distinct values, those that the bag has among them.
const TOO_LARGE: &str = r"
    a reserve 18446744073709551615\n | 3 | no memory\n
    a reserve 432345564227567617\n | 3 | no memory\n
    b insert 1\nb reserve 432345564227567616\nb count 1\n | 3 | no memory\n
    a insert 1\na reserve 18446744073709551615\na count 1\n | 3 | no memory\n";

// The trees of two empty bags.
const EMPTY: &[u8] = b"a json []\nb json []\n";

fn digit(byte: u8) -> Result<u8, Fail> {
    match byte {
        b'0'..=b'9' => Ok(byte - b'0'),
        b'a'..=b'f' => Ok(byte - b'a' + 10),
        _ => Err(Fail::new("no hexadecimal digit")),
    }
}

// Appends what a part of a row after a backslash means.
fn push_escaped(bytes: &mut Vec<u8>, part: &[u8]) -> Result<(), Fail> {
    let Some((kind, rest)) = part.split_first() else {
        return Err(Fail::new("a backslash at the end"));
    };
    if *kind == b'n' {
        bytes.push(b'\n')?;
        return Ok(bytes.extend_from_slice(rest)?);
    }
    let (high, rest) = rest.split_first().ok_or("no digit")?;
    let (low, rest) = rest.split_first().ok_or("one digit")?;
    if *kind != b'x' {
        return Err(Fail::new("neither \\n nor \\x"));
    }
    bytes.push(digit(*high)?.wrapping_mul(16).wrapping_add(digit(*low)?))?;
    Ok(bytes.extend_from_slice(rest)?)
}

// Returns the bytes that a part of a row means.
fn bytes_of(alloc: Global, text: &str) -> Result<Vec<u8>, Fail> {
    let (text, is_empty) = match text.strip_suffix("..") {
        Some(text) => (text, true),
        None => (text, false),
    };
    let mut bytes = Vec::new(alloc);
    let mut parts = text.as_bytes().split(|byte| *byte == b'\\');
    bytes.extend_from_slice(parts.next().ok_or("no part")?)?;
    for part in parts {
        push_escaped(&mut bytes, part)?;
    }
    if is_empty {
        bytes.extend_from_slice(EMPTY)?;
    }
    Ok(bytes)
}

// An input, and the status and the text with which the program ends. Failures of the test name `row`.
#[derive(Clone, Copy)]
struct Run<'a> {
    row: &'a str,
    input: &'a [u8],
    status: u8,
    text: &'a [u8],
}

impl Run<'_> {
    // Checks that this is what the program returned and wrote.
    fn ended(&self, rt: &impl Abort, status: u8, output: &Sink) {
        assert_eq!(rt; status, self.status, "the status of {}", self.row);
        assert!(rt;
            output.taken.as_slice() == self.text,
            "{:?}, at {}",
            output.text(),
            self.row
        );
    }

    // Checks the status and the text if no read or write fails. Returns how many reads and writes there are.
    fn succeeds(&self, alloc: Global, rt: &impl Abort) -> (usize, usize) {
        let mut input = Pieces::new(self.input, 0);
        let mut output = Sink::new(alloc, 0, false);
        let status = execute(alloc, &mut input, &mut output);
        self.ended(rt, status, &output);
        (input.reads, output.writes)
    }

    // Lets each read fail in turn: the status is 4, and nothing is written. A failure after the last read changes nothing.
    fn fails_at_each_read(&self, alloc: Global, rt: &impl Abort, reads: usize) {
        for fails_at in 1..=reads.saturating_add(1) {
            let mut output = Sink::new(alloc, 0, false);
            let status = execute(alloc, &mut Pieces::new(self.input, fails_at), &mut output);
            if fails_at > reads {
                self.ended(rt, status, &output);
            } else {
                assert_eq!(rt; status, 4, "at read {fails_at} of {}", self.row);
                assert!(rt;
                    output.taken.is_empty(),
                    "at read {fails_at} of {}",
                    self.row
                );
            }
        }
    }

    // Lets each write fail in turn, or take no byte: the status is 4, and a beginning was written. A failure after the last write changes nothing.
    fn fails_at_each_write(&self, alloc: Global, rt: &impl Abort, writes: usize, takes_none: bool) {
        for fails_at in 1..=writes.saturating_add(1) {
            let mut output = Sink::new(alloc, fails_at, takes_none);
            let status = execute(alloc, &mut Pieces::new(self.input, 0), &mut output);
            if fails_at > writes {
                self.ended(rt, status, &output);
            } else {
                let taken = output.taken.as_slice();
                assert_eq!(rt; status, 4, "at write {fails_at} of {}", self.row);
                assert!(rt;
                    self.text.starts_with(taken),
                    "at write {fails_at} of {}",
                    self.row
                );
                assert!(rt;
                    taken.len() < self.text.len(),
                    "at write {fails_at} of {}",
                    self.row
                );
            }
        }
    }

    // Checks what the program returns and writes, and that the status is 4 exactly if a read or a write fails.
    fn has_its_causes(&self, alloc: Global, rt: &impl Abort) {
        let (reads, writes) = self.succeeds(alloc, rt);
        assert!(rt;
            reads > 0 && writes > 0,
            "no read or no write: {}",
            self.row
        );
        self.fails_at_each_read(alloc, rt, reads);
        self.fails_at_each_write(alloc, rt, writes, false);
        self.fails_at_each_write(alloc, rt, writes, true);
    }
}

// Checks a row, whose status is one of two.
fn row_has_its_causes(
    alloc: Global,
    rt: &impl Abort,
    row: &str,
    statuses: (u8, u8),
) -> Result<(), Fail> {
    let (input, rest) = halves(row, "|")?;
    let (status, text) = halves(rest, "|")?;
    let (input, text) = (bytes_of(alloc, input)?, bytes_of(alloc, text)?);
    let status = status.parse().ok().ok_or("a status")?;
    assert!(rt; status == statuses.0 || status == statuses.1, "{row}");
    let run = Run {
        row,
        input: input.as_slice(),
        status,
        text: text.as_slice(),
    };
    run.has_its_causes(alloc, rt);
    Ok(())
}

#[test]
fn odd_inputs(rt: HostRuntime) -> Result<(), Fail> {
    for row in rows_of(rt.alloc(), ROWS)? {
        row_has_its_causes(rt.alloc(), &rt, row.text, (0, 2))?;
    }
    Ok(())
}

#[test]
fn long_runs(rt: HostRuntime) {
    for (input, text) in &LONG {
        let run = Run {
            row: *input,
            input: input.as_bytes(),
            status: 0,
            text: text.as_bytes(),
        };
        run.has_its_causes(rt.alloc(), &rt);
    }
}

#[test]
fn too_many_distinct_values(rt: HostRuntime) -> Result<(), Fail> {
    for row in rows_of(rt.alloc(), TOO_LARGE)? {
        row_has_its_causes(rt.alloc(), &rt, row.text, (3, 3))?;
    }
    Ok(())
}
