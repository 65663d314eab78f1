//! Whole runs of the program over readers and writers in memory.
use crate::streams::{Pieces, Sink};
use hashbag_run_lib::execute::execute;
use std::alloc::{AllocError, Global};
use std::fmt::Write as _;
use std::process::Abort;
use std::test::Fail;

// Two insertions of a value, a removal and a count.
const STEPS: &str = "a insert 5\na insert 5\na remove 5\na count 5\n";

const OUTPUT: &str = "a count 0\na count 1\na count 2\na count 1\n\
    outer 5 1 0\ndifference 5 1\nsigned 5 1\nnot_in 5 1\na json [[5,1]]\nb json []\n";

// Steps on two bags, with an empty line among them.
const TWO_BAGS: &str = "a many 2 1\na many 2 2\nb insert 2\na many 2 4\n\n\
    b insert 9\na count 2\nb try 9\nb try 9\n";

const TWO_BAGS_OUTPUT: &str = "a count 0\na count 1\na count 3\na count 7\n\
    b count 0\nb count 0\nb taken 9 1\nb absent\n\
    outer 2 7 1\ndifference 2 6\nsigned 2 6\na json [[2,7]]\nb json [[2,1]]\n";

// The trees of two empty bags.
const EMPTY: &str = "a json []\nb json []\n";

// Runs the program on an input, and compares its status and all that it writes.
fn has_output(alloc: Global, rt: &impl Abort, input: &str, status: u8, wanted: &str) {
    answers_bytes(alloc, rt, input.as_bytes(), status, wanted);
}

fn answers_bytes(alloc: Global, rt: &impl Abort, input: &[u8], status: u8, wanted: &str) {
    let mut output = Sink::new(alloc, 0, false);
    let got = execute(alloc, &mut Pieces::new(input, 0), &mut output);
    assert_eq!(rt; got, status, "at {input:?}");
    assert_eq!(rt; output.text(), wanted, "at {input:?}");
}

// The same for an input that leaves both bags empty: their trees are written after what is wanted.
fn leaves_none(
    alloc: Global,
    rt: &impl Abort,
    input: &str,
    wanted: &str,
) -> Result<(), AllocError> {
    let mut whole = String::from_str(alloc, wanted)?;
    whole.push_str(EMPTY)?;
    has_output(alloc, rt, input, 0, whole.as_str());
    Ok(())
}

#[test]
fn answers_steps(rt: HostRuntime) -> Result<(), Fail> {
    has_output(rt.alloc(), &rt, STEPS, 0, OUTPUT);
    let rows = [
        ("", ""),
        ("\n\n", ""),
        ("a count 7", "a count 0\n"),
        ("a remove 1\n", "a count 0\n"),
        ("a insert 005\n\na remove 5\n", "a count 0\na count 1\n"),
        (
            "a insert 18446744073709551615\na remove 18446744073709551615\n",
            "a count 0\na count 1\n",
        ),
        (
            "a insert 00000000000000000007\na all 7\n",
            "a count 0\na taken 7 1\n",
        ),
    ];
    for (input, wanted) in rows {
        leaves_none(rt.alloc(), &rt, input, wanted)?;
    }
    Ok(())
}

// Runs on two bags: replies of a and then of b, each join of what they leave in ascending order of values, and the trees.
const TWO_BAG_RUNS: [(&str, &str); 7] = [
    (TWO_BAGS, TWO_BAGS_OUTPUT),
    (
        "a or 4 3\na or 4 9\na set 4 0\na set 4 1\nb retain\nb or 6 0\n",
        "a count 3\na count 3\na done\na absent\nb done\nb count 0\n\
        a json []\nb json []\n",
    ),
    (
        "a many 5 3\na many 6 2\na retain 6 9 5 2 5 1\na count 5\na count 6\na retain\na count 5\n",
        "a count 0\na count 0\na done\na count 2\na count 2\na done\na count 0\n\
        a json []\nb json []\n",
    ),
    (
        "a many 7 18446744073709551615\na insert 8\n",
        "a count 0\na too many\nouter 7 18446744073709551615 0\ndifference 7 18446744073709551615\n\
        signed 7 9223372036854775807\nnot_in 7 18446744073709551615\n\
        a json [[7,18446744073709551615]]\nb json []\n",
    ),
    (
        "b many 7 18446744073709551615\nb insert 8\n",
        "b count 0\nb too many\nouter 7 0 18446744073709551615\nsigned 7 -9223372036854775808\n\
        a json []\nb json [[7,18446744073709551615]]\n",
    ),
    (
        "a limit 3\na many 5 2\na many 6 2\na limit 1\nb limit 0\nb insert 5\n",
        "a done\na count 0\na too many\na below total\nb done\nb too many\n\
        outer 5 2 0\ndifference 5 2\nsigned 5 2\nnot_in 5 2\n\
        a json {\"limit\":3,\"pairs\":[[5,2]]}\nb json {\"limit\":0,\"pairs\":[]}\n",
    ),
    (
        "b insert 10\nb many 2 3\na insert 9\na many 2 1\na many 100 2\nb insert 9\n",
        "a count 0\na count 0\na count 0\nb count 0\nb count 0\nb count 0\n\
        outer 2 1 3\nouter 9 1 1\nouter 10 0 1\nouter 100 2 0\ndifference 100 2\n\
        signed 2 -2\nsigned 9 0\nsigned 10 -1\nsigned 100 2\nnot_in 100 2\n\
        a json [[2,1],[9,1],[100,2]]\nb json [[2,3],[9,1],[10,1]]\n",
    ),
];

#[test]
fn answers_two_bags(rt: HostRuntime) {
    for (input, wanted) in &TWO_BAG_RUNS {
        has_output(rt.alloc(), &rt, input, 0, wanted);
    }
}

// Each verb, with the reply that its line has. Nothing is left, so that there are no joins and the trees are empty.
#[test]
fn replies_to_each_verb(rt: HostRuntime) -> Result<(), Fail> {
    let script = "a many 5 3\na insert 5\na upto 5 3\na replace 5\na try 5\na try 5\n\
        a many 6 2\na try 6\na insert 7\na all 6\na all 6\na reserve 10\na shrink\n\
        a remove 7\na count 7\na insert 8\na clear\na count 8\na many 8 0\na upto 8 2\n";
    let replies = "a count 0\na count 3\na count 1\na count 1\na taken 5 1\na absent\n\
        a count 0\na left 2\na count 0\na taken 6 1\na absent\na done\na done\n\
        a count 1\na count 0\na count 0\na done\na count 0\na count 0\na count 0\n";
    Ok(leaves_none(rt.alloc(), &rt, script, replies)?)
}

#[test]
fn replies_to_entries(rt: HostRuntime) -> Result<(), Fail> {
    let script = "a or 4 3\na or 4 9\na set 4 0\na set 4 1\na or 6 0\na count 6\n\
        a many 7 18446744073709551615\na or 8 1\na or 8 0\na set 7 2\na set 7 18446744073709551615\n\
        a set 7 1\na or 8 2\na set 8 18446744073709551615\na count 8\na clear\n";
    let replies = "a count 3\na count 3\na done\na absent\na count 0\na count 0\n\
        a count 0\na too many\na count 0\na done\na done\n\
        a done\na count 2\na too many\na count 2\na done\n";
    Ok(leaves_none(rt.alloc(), &rt, script, replies)?)
}

#[test]
fn totals_stop_at_their_end(rt: HostRuntime) -> Result<(), Fail> {
    let script = "a many 7 18446744073709551615\na insert 8\na many 7 1\na many 8 0\n\
        a replace 8\na replace 7\na replace 8\na upto 7 0\na clear\n";
    let replies = "a count 0\na too many\na too many\na count 0\n\
        a too many\na count 18446744073709551615\na count 0\na count 1\na done\n";
    Ok(leaves_none(rt.alloc(), &rt, script, replies)?)
}

// Inputs with a bad line, and what is said of the first.
const BAD_LINES: [(&str, &str); 6] = [
    ("c insert 5\n", "bad line 1\n"),
    ("b insert 5\nb insert\n", "bad line 2\n"),
    ("a insert 1\nc insert 2\na insert\n", "bad line 2\n"),
    ("a insert 1\n\na insert", "bad line 3\n"),
    ("a insert 18446744073709551616\n", "bad line 1\n"),
    ("a insert 000000000000000000001\n", "bad line 1\n"),
];

#[test]
fn counts_lines_to_the_bad_one(rt: HostRuntime) {
    for (input, wanted) in &BAD_LINES {
        has_output(rt.alloc(), &rt, input, 2, wanted);
    }
}

// Each line is no step. One has a byte that is no text, and one a number of 21 digits.
const HOSTILE: &[u8] = b"a  insert 5\n a insert 5\nA insert 5\na insert 5 \na insert 5\r\n\
    a insert\na insert \na insert -5\na insert +5\na insert 5 5\na insert 1.0\na insert five\n\
    a \xc3\xa4 5\na\tinsert 5\na Insert 5\na many 5\na many 5 1 1\na clear 5\na reserve\na upto 5 -1\n\
    a retain 1\na retain 1 2 3\na retain 1 -2\na retain 1  2\na set 5\na or\n\
    insert 5\na\nb\nB insert 5\nab insert 5\n \n\
    a limit\na limit 1 2\na limit -1\na limit 18446744073709551616\n\
    a insert 000000000000000000005\na insert 18446744073709551616\na insert \xff\na insert 5\xff\n\xff";

// Each hostile line alone, and behind an empty line.
#[test]
fn refuses_hostile_lines(rt: HostRuntime) -> Result<(), Fail> {
    let mut lines = 0usize;
    for line in HOSTILE.split(|byte| *byte == b'\n') {
        answers_bytes(rt.alloc(), &rt, line, 2, "bad line 1\n");
        let mut second = vec![in rt.alloc(); b'\n']?;
        second.extend_from_slice(line)?;
        answers_bytes(rt.alloc(), &rt, second.as_slice(), 2, "bad line 2\n");
        lines = lines.saturating_add(1);
    }
    assert_eq!(rt; lines, 41);
    Ok(())
}

// Returns `n` insertions of 7, eleven bytes each, and their replies.
fn insertions(alloc: Global, n: usize) -> Result<(String, String), AllocError> {
    let mut input = String::new(alloc);
    let mut wanted = String::new(alloc);
    for before in 0..n {
        input.push_str("a insert 7\n")?;
        writeln!(wanted, "a count {before}")?;
    }
    writeln!(
        wanted,
        "outer 7 {n} 0\ndifference 7 {n}\nsigned 7 {n}\nnot_in 7 {n}"
    )?;
    writeln!(wanted, "a json [[7,{n}]]\nb json []")?;
    Ok((input, wanted))
}

// Inputs of 66,000 bytes, in reads as large as they are asked for, and of 11,000 bytes, in as many reads. Lines go across reads.
#[test]
fn reads_long_inputs(rt: HostRuntime) -> Result<(), Fail> {
    for (lines, piece) in [(6_000usize, usize::MAX), (1_000, 1)] {
        let (input, wanted) = insertions(rt.alloc(), lines)?;
        let mut pieces = Pieces::new(input.as_bytes(), 0);
        pieces.piece = piece;
        let mut output = Sink::new(rt.alloc(), 0, false);
        let status = execute(rt.alloc(), &mut pieces, &mut output);
        assert_eq!(rt; status, 0, "at {lines} lines");
        assert!(rt; output.text() == wanted.as_str(), "at {lines} lines");
    }
    Ok(())
}

#[test]
fn writes_nothing_after_a_failed_read(rt: HostRuntime) {
    for fails_at in 1..4 {
        let mut output = Sink::new(rt.alloc(), 0, false);
        let status = execute(
            rt.alloc(),
            &mut Pieces::new(STEPS.as_bytes(), fails_at),
            &mut output,
        );
        assert_eq!(rt; status, 4, "at read {fails_at}");
        assert!(rt; output.taken.is_empty(), "at read {fails_at}");
    }
}

// Runs the program on a writer that fails. What was written is a beginning of the whole, of as many pieces as were taken.
fn fails_at_write(
    alloc: Global,
    rt: &impl Abort,
    input: &str,
    whole: &str,
    fails_at: usize,
    takes_none: bool,
) {
    let mut output = Sink::new(alloc, fails_at, takes_none);
    let status = execute(alloc, &mut Pieces::new(input.as_bytes(), 0), &mut output);
    assert_eq!(rt; status, 4, "at write {fails_at}");
    let taken = output.text();
    assert_eq!(rt; taken.len(), fails_at.saturating_sub(1).saturating_mul(7));
    assert!(rt; whole.starts_with(taken), "at write {fails_at}: {taken:?}");
}

#[test]
fn fails_at_each_write(rt: HostRuntime) {
    // The output has 149 bytes and takes 22 writes, and what is said of a bad line has 11 and takes two.
    assert_eq!(rt; TWO_BAGS_OUTPUT.len().div_ceil(7), 22);
    for fails_at in 1..23 {
        fails_at_write(rt.alloc(), &rt, TWO_BAGS, TWO_BAGS_OUTPUT, fails_at, false);
        fails_at_write(rt.alloc(), &rt, TWO_BAGS, TWO_BAGS_OUTPUT, fails_at, true);
    }
    for fails_at in 1..3 {
        fails_at_write(rt.alloc(), &rt, "x\n", "bad line 1\n", fails_at, false);
        fails_at_write(rt.alloc(), &rt, "x\n", "bad line 1\n", fails_at, true);
    }
}
