//! What no clause says of movements: which texts are read, what is said of bad ones, and how a balance and refusals are written. The
//! expected values were found by hand.
use crate::texts::{are_text, is_text};
use hashbag::FixedState;
use hashbag_csv::counts::Reading;
use hashbag_csv::delimiter::Delimiter;
use hashbag_csv::forms::{Form, rows_text};
use hashbag_csv::scale::{Mark, Scale};
use hashbag_ledger_lib::entering::LedgerError;
use hashbag_ledger_lib::ledger::{Entered, Ledger, end};
use hashbag_ledger_lib::listings::{Balance, Refusals, refusals_text};
use hashbag_ledger_lib::movements::{Change, Movement, Refusal};
use hashbag_ledger_lib::reading::{ChangeColumns, Columns, enter_movements, read_movements};
use std::alloc::{AllocError, Global};
use std::hash::{BuildHasher, RandomState};
use std::test::Fail;

// Movements with a sign, and by their kinds.
const SIGNED: Columns<&str> = Columns {
    article: "article",
    change: ChangeColumns::Signed("change"),
};

const BY_KIND: Columns<&str> = Columns {
    article: "part",
    change: ChangeColumns::ByKind("kind", "number"),
};

fn columns_of(word: &str) -> Columns<&'static str> {
    if word == "by kind" { BY_KIND } else { SIGNED }
}

// The columns of a balance.
const NAMES: (&str, &str) = ("article", "number");

// The columns of a text, the text, and its movements, or its first bad line and what is wrong with it.
const TEXTS: [(&str, &str, &str); 18] = [
    (
        "signed",
        "article,change\nbolt,5\nnut,+7\n\nbolt,-4\n",
        "[2 bolt in 5][3 nut in 7][5 bolt out 4]",
    ),
    (
        "signed",
        "change,article\n-0,\"a\nb\"\n0,c\n",
        "[2 a\nb out 0][4 c in 0]",
    ),
    (
        "signed",
        "article,change\nbolt,--5\n",
        "2: no number: `--5`",
    ),
    (
        "signed",
        "article,change\nbolt,+-5\n",
        "2: no number: `+-5`",
    ),
    ("signed", "article,change\nbolt,-\n", "2: no number: `-`"),
    (
        "signed",
        "article,change\nbolt,-18446744073709551616\n",
        "2: number past 18446744073709551615: `-18446744073709551616`",
    ),
    (
        "signed",
        "article,number\n",
        "1: no column `change`; there are: `article`, `number`",
    ),
    (
        "by kind",
        "number,kind,part\n5,in,bolt\n4,out,bolt\n",
        "[2 bolt in 5][3 bolt out 4]",
    ),
    (
        "by kind",
        "part,kind,number\nbolt,In,5\n",
        "2: neither `in` nor `out`: `In`",
    ),
    (
        "by kind",
        "part,kind,number\nbolt,in,+5\n",
        "2: no number: `+5`",
    ),
    (
        "by kind",
        "part,kind,number\nbolt,in,5\nnut,out\n",
        "3: 3 fields wanted, 2 found",
    ),
    ("by kind", "", "1: no header"),
    (
        "signed",
        "article,change\nbolt,5\nnut,7,\"12 inch\nbolt,-2\n",
        "3: quote never closed",
    ),
    (
        "signed",
        "article,change,note\nbolt,5,\nnut,7,\"12 inch\nbolt,-2,\n",
        "3: quote never closed",
    ),
    (
        "signed",
        "article,change\n\"bolt\" x,5\n",
        "2: text after a closing quote",
    ),
    (
        "signed",
        "article,change\n12\" bolt,5\n",
        "2: quote in a field without quotes",
    ),
    (
        "signed",
        "article,change\nbolt,-1.5\n",
        "2: whole numbers only: `-1.5`",
    ),
    (
        "signed",
        "article,change\nbolt,\"1,5\"\n",
        "2: whole numbers only: `1,5`",
    ),
];

// Returns movements in one line.
fn in_line(alloc: Global, movements: &[Movement<String>]) -> Result<String, AllocError> {
    let mut said = String::new(alloc);
    for movement in movements {
        let line = movement.place.line;
        let article = movement.article.as_str();
        let (kind, number) = match movement.change {
            Change::In(n) => ("in", n),
            Change::Out(n) => ("out", n),
        };
        write!(said, "[{line} {article} {kind} {number}]")?;
    }
    Ok(said)
}

// Returns the movements of a text, or its fault, in one line.
fn said_of(
    alloc: Global,
    names: Columns<&str>,
    text: &str,
    reading: Reading,
) -> Result<String, AllocError> {
    match read_movements(alloc, text.as_bytes(), 0, names, reading) {
        Ok(movements) => in_line(alloc, &movements),
        Err(error) => format!(in alloc; "{error}"),
    }
}

#[test]
fn texts_are_read(rt: HostRuntime) -> Result<(), Fail> {
    for (names, text, wanted) in &TEXTS {
        let said = said_of(rt.alloc(), columns_of(names), text, Reading::plain())?;
        assert_eq!(rt; said.as_str(), *wanted);
    }
    Ok(())
}

// Semicolons between fields, and two decimals after a comma.
fn european() -> Reading {
    Reading {
        delimiter: Delimiter::Semicolon,
        scale: Scale::new(2, Mark::Comma).unwrap_or(Scale::whole()),
    }
}

// A text with these, and its movements or its first bad line.
const DECIMALS: [(&str, &str); 3] = [
    (
        "article;change\nbolt;1,5\nnut;-0,25\nnut;+3\n",
        "[2 bolt in 150][3 nut out 25][4 nut in 300]",
    ),
    (
        "article;change\nbolt;1,555\n",
        "2: more than 2 decimals: `1,555`",
    ),
    ("article;change\nbolt;1.5\n", "2: no number: `1.5`"),
];

#[test]
fn decimals_are_read(rt: HostRuntime) -> Result<(), Fail> {
    for (text, wanted) in &DECIMALS {
        let said = said_of(rt.alloc(), SIGNED, text, european())?;
        assert_eq!(rt; said.as_str(), *wanted);
    }
    Ok(())
}

// A stock at the beginning, a text of movements, and the balance and the refusals.
const LEDGERS: [(&[(&str, usize)], &str, &str); 6] = [
    (&[], "article,change\n", "article,number\n"),
    (
        &[("nut", 2), ("bolt", 0), ("nut", 3)],
        "article,change\nnut,-5\nbolt,-1\nbolt,1\nbolt,-1\nnut,-1\n\"a, b\",1\n",
        "article,number\n\"a, b\",1\nm.csv:3: refused: out 1 of \"bolt\", 0 there\nm.csv:6: refused: out 1 of \"nut\", 0 there\n",
    ),
    (
        &[("x", 18446744073709551614)],
        "article,change\ny,1\nx,-1\n\"z\n\",2\n",
        "4: total past 18446744073709551615",
    ),
    (
        &[("x", 18446744073709551614)],
        "article,change\n\"z\n\",-2\nx,-1\ny,2\n",
        "article,number\nx,18446744073709551613\ny,2\nm.csv:2: refused: out 2 of \"z\\n\", 0 there\n",
    ),
    (
        &[("x", 18446744073709551615), ("x", 1)],
        "article,change\n",
        "too many at the start",
    ),
    (
        &[("5\" tube", 1)],
        "article,change\n\"5\"\" tube\",-2\n\"a\\\",-1\n",
        "article,number\n\"5\"\" tube\",1\nm.csv:2: refused: out 2 of \"5\\\" tube\", 1 there\nm.csv:3: refused: out 1 of \"a\\\\\", 0 there\n",
    ),
];

// Returns a stock of owned texts.
fn stock_of(alloc: Global, start: &[(&str, usize)]) -> Result<Vec<(String, usize)>, Fail> {
    let mut stock = Vec::new(alloc);
    for (article, number) in start {
        stock.push((article.to_string(alloc)?, *number))?;
    }
    Ok(stock)
}

// What a balance is as CSV.
fn balance_text(
    alloc: Global,
    names: (&str, &str),
    reading: Reading,
    balance: &[(String, usize)],
) -> Result<Vec<u8>, AllocError> {
    rows_text(alloc, Form::Csv, reading.delimiter, &Balance(names, reading.scale), balance)
}

// Returns the balance and the refusals as text.
fn said_of_all(alloc: Global, entered: &Entered<String>) -> Result<String, Fail> {
    let balance = balance_text(alloc, NAMES, Reading::plain(), &entered.balance)?;
    let mut said = String::from_utf8(balance)?;
    said.push_str(refusals_text(alloc, &["m.csv"], Scale::whole(), &entered.refusals)?.as_str())?;
    Ok(said)
}

// Returns the balance and the refusals after movements that are entered into a ledger, or the error, as text.
fn left_in<S: BuildHasher + Drop>(
    alloc: Global,
    mut ledger: Ledger<String, S>,
    text: &[u8],
) -> Result<String, Fail> {
    match enter_movements(alloc, &mut ledger, text, 0, SIGNED, Reading::plain()) {
        Ok(()) => said_of_all(alloc, &end(alloc, ledger)?),
        Err(error) => Ok(format!(in alloc; "{error}")?),
    }
}

// Returns the balance and the refusals, or the error, as text.
fn left_by<S: BuildHasher + Drop>(
    alloc: Global,
    state: S,
    start: &[(&str, usize)],
    text: &str,
) -> Result<String, Fail> {
    match Ledger::begin(alloc, state, usize::MAX, stock_of(alloc, start)?) {
        Ok(ledger) => left_in(alloc, ledger, text.as_bytes()),
        Err(LedgerError::StartTooMany) => Ok(format!(in alloc; "too many at the start")?),
        Err(_) => Ok(format!(in alloc; "no memory")?),
    }
}

#[test]
fn movements_are_entered(rt: HostRuntime) -> Result<(), Fail> {
    let state = RandomState::new(&rt)?;
    for (start, text, wanted) in &LEDGERS {
        let fixed = left_by(rt.alloc(), FixedState::new(), start, text)?;
        is_text(&fixed, wanted)?;
        let random = left_by(rt.alloc(), state, start, text)?;
        is_text(&random, wanted)?;
    }
    Ok(())
}

// Returns what movements of a text leave of a stock.
fn entered_into(
    alloc: Global,
    start: &[(&str, usize)],
    text: &str,
    reading: Reading,
) -> Result<Entered<String>, Fail> {
    let stock = stock_of(alloc, start)?;
    let Ok(mut ledger) = Ledger::begin(alloc, FixedState::new(), usize::MAX, stock) else {
        return Err(Fail::from("not begun"));
    };
    enter_movements(alloc, &mut ledger, text.as_bytes(), 0, SIGNED, reading)?;
    Ok(end(alloc, ledger)?)
}

// What refusals are as CSV.
fn refusals_table(
    alloc: Global,
    files: &[&str],
    reading: Reading,
    refusals: &[Refusal<String>],
) -> Result<Vec<u8>, AllocError> {
    rows_text(alloc, Form::Csv, reading.delimiter, &Refusals(reading.scale, files), refusals)
}

// What is written with decimals of a stock and of refusals.
fn are_written(alloc: Global, entered: &Entered<String>) -> Result<(), Fail> {
    let balance = balance_text(alloc, ("sku", "kg"), european(), &entered.balance)?;
    are_text(&balance, "sku;kg\nbolt;1,50\nnut;3,20\n")?;
    let said = refusals_text(alloc, &["m.csv"], european().scale, &entered.refusals)?;
    is_text(&said, "m.csv:3: refused: out 0,25 of \"nut\", 0,20 there\n")?;
    let table = refusals_table(alloc, &["m.csv"], european(), &entered.refusals)?;
    are_text(
        &table,
        "file;line;article;asked;there\nm.csv;3;nut;0,25;0,20\n",
    )
}

#[test]
fn decimals_are_written(rt: HostRuntime) -> Result<(), Fail> {
    let text = "article;change\nbolt;1,5\nnut;-0,25\nnut;+3\n";
    let entered = entered_into(rt.alloc(), &[("nut", 20)], text, european())?;
    are_written(rt.alloc(), &entered)
}

// Refusals as CSV.
const REFUSED: &str = "\
file,line,article,asked,there
\"a,b.csv\",2,\"5\"\" tube\",2,1
\"a,b.csv\",3,\"x
y\",18446744073709551615,0
\"a,b.csv\",5,nut,1,0
";

// The refusals as CSV.
fn is_table(alloc: Global, refusals: &[Refusal<String>], wanted: &str) -> Result<(), Fail> {
    let table = refusals_table(alloc, &["a,b.csv"], Reading::plain(), refusals)?;
    are_text(&table, wanted)
}

#[test]
fn refusals_are_written_as_csv(rt: HostRuntime) -> Result<(), Fail> {
    let text = "article,change\n\"5\"\" tube\",-2\n\"x\ny\",-18446744073709551615\nnut,-1\n";
    let entered = entered_into(rt.alloc(), &[("5\" tube", 1)], text, Reading::plain())?;
    is_table(rt.alloc(), &entered.refusals, REFUSED)?;
    is_table(rt.alloc(), &[], "file,line,article,asked,there\n")
}
