//! What no clause says of lists with quantities: how texts are read, and what is said of bad ones. What is wanted was found by hand,
//! and that Python's `csv` reads the good texts so too.
use hashbag::FixedState;
use hashbag_csv::counts::{Reading, read_counts_as};
use hashbag_csv::decimals::{read_decimal, write_decimal};
use hashbag_csv::delimiter::Delimiter;
use hashbag_csv::fault::in_file;
use hashbag_csv::line_form::LineForm;
use hashbag_csv::scale::{Mark, Scale};
use hashbag_match_lib::keys::{names_in, repeated};
use hashbag_match_lib::matching::rows_of_tallies;
use hashbag_match_lib::output::is_reserved;
use hashbag_match_lib::reading::read_tally;
use hashbag_match_lib::tally::{Tally, empty_tally};
use std::alloc::{AllocError, Global};
use std::test::Fail;

// A text, and what it says: each article with its number, or its first bad line and what is wrong with that.
const TEXTS: [(&[u8], &str); 52] = [
    (b"article,number\n", ""),
    (
        b"article,number\nbolt,5\nnut,0\nbolt,007",
        "[bolt 12][nut 0]",
    ),
    (
        b"\xef\xbb\xbfnumber,box,article\r\n5,,bolt\r\n\r\n\r\n7,,nut\r\n",
        "[bolt 5][nut 7]",
    ),
    (b"\n\narticle,number\n,1\n\"\",2\n", "[ 3]"),
    (
        b"\"article\",\"number\"\n\"a \"\"b\"\", c\",\"1\"\n\"d\r\ne\",2\n",
        "[a \"b\", c 1][d\r\ne 2]",
    ),
    (
        b"article,number\nn\xc3\xa4gel,18446744073709551615\n",
        "[n\u{e4}gel 18446744073709551615]",
    ),
    (b"", "1: no header"),
    (b"\xef\xbb\xbf\r\n\n", "1: no header"),
    (
        b"\n\narticle;number\n",
        "3: no column `article`; there are: `article;number`; is the delimiter `;`?",
    ),
    (
        b"article\tnumber\n",
        "1: no column `article`; there are: `article\\tnumber`; is the delimiter `tab`?",
    ),
    (
        b"article, number\n",
        "1: no column `number`; there are: `article`, ` number`; is it ` number`?",
    ),
    (
        b"Article,\xff,number\n",
        "1: no column `article`; there are: `Article`, one that is not UTF-8, `number`; is it `Article`?",
    ),
    (
        b"a,b,c,d,e,f,g,h,i,j,k,l,m,number\n",
        "1: no column `article`; there are: `a`, `b`, `c`, `d`, `e`, `f`, `g`, `h`, `i`, `j`, `k`, `l` and 2 more",
    ),
    (
        b"\xff\xfea\0r\0t\0",
        "1: UTF-16; `--encoding UTF-16` reads it",
    ),
    (
        b"\xfe\xff\0a\0r\0t",
        "1: UTF-16; `--encoding UTF-16` reads it",
    ),
    (
        b"article,number,article\n",
        "1: more than one column `article`",
    ),
    (
        b"article,number\nbolt,5\nnut\n",
        "3: 2 fields wanted, 1 found",
    ),
    (
        b"article,number\n\r\n\n\"bolt\nnut\",5,6\n",
        "4: 2 fields wanted, 3 found",
    ),
    (
        b"article,number\n\"bolt,5\nnut,6\n",
        "2: quote never closed",
    ),
    (
        b"article,number,remark\nbolt,5,\nnut,7,\"12 inch\nbolt,2,\n",
        "3: quote never closed",
    ),
    (
        b"article,number\nbolt,\"5\r\n\r\nnut,7\r\n",
        "2: quote never closed",
    ),
    (b"article,number\nbolt,5\n\"", "3: quote never closed"),
    (b"\"article,number\n", "1: quote never closed"),
    (
        b"article,number\n\"a\nb\",\"1\nc,2\n",
        "3: quote never closed",
    ),
    (
        b"article,number\nnut,\"7\" \n",
        "2: text after a closing quote",
    ),
    (
        b"article,number\n\"12\"\" \"inch,7\n",
        "2: text after a closing quote",
    ),
    (
        b"article,number\n\"a\n\"b,7\n",
        "2: text after a closing quote",
    ),
    (
        b"article,number\nnut 12\",7\n",
        "2: quote in a field without quotes",
    ),
    (
        b"article,number\n\"a\nb\",1\"\n",
        "3: quote in a field without quotes",
    ),
    (
        b"article,number\n \"nut\",7\n",
        "2: quote in a field without quotes",
    ),
    (
        b"article,number\n\"\",5\n\"\"\"\",6\n\"\"",
        "4: 2 fields wanted, 1 found",
    ),
    (
        b"article,number\n\"\"\"\",5\r\n\"\r\",\"6\"",
        "[\r 6][\" 5]",
    ),
    (
        b"article,number\nbo\xfft,5\n",
        "2: column `article` is not UTF-8; if it is Windows-1252, `--encoding Windows-1252`",
    ),
    (
        b"article,number\nbolt,5\nnut,\xff\n",
        "3: column `number` is not UTF-8; if it is Windows-1252, `--encoding Windows-1252`",
    ),
    (b"article,number,remark\nbolt,5,\xff\n", "[bolt 5]"),
    (b"article,number\nbolt,\n", "2: no number: ``"),
    (b"article,number\nbolt,-1\n", "2: no number: `-1`"),
    (b"article,number\nbolt,+1\n", "2: no number: `+1`"),
    (b"article,number\nbolt, 1\n", "2: no number: ` 1`"),
    (
        b"article,number\nbolt,1.5\n",
        "2: whole numbers only: `1.5`",
    ),
    (
        b"article,number\nbolt,\"1.000,25\"\n",
        "2: whole numbers only: `1.000,25`",
    ),
    (
        b"article,number\nbolt,\"1,000,000.5\"\n",
        "2: whole numbers only: `1,000,000.5`",
    ),
    (b"article,number\nbolt,1.5.5\n", "2: no number: `1.5.5`"),
    (
        b"article,number\nbolt,1.000.000\n",
        "2: no number: `1.000.000`",
    ),
    (b"article,number\nbolt,\"1,.5\"\n", "2: no number: `1,.5`"),
    (b"article,number\nbolt,1.\n", "2: no number: `1.`"),
    (
        b"article,number\nbolt,\xd9\xa3\n",
        "2: no number: `\u{663}`",
    ),
    (
        b"article,number\n\"a\nb\",1\nbolt,\"x\ty\"\n",
        "4: no number: `x\\ty`",
    ),
    (
        b"article,number\nbolt,0000000000111111111122222222223333333333444444444455555555556x\n",
        "2: no number: `000000000011111111112222222222333333333344444444445555555555..`",
    ),
    (
        b"article,number\nbolt,18446744073709551616\n",
        "2: number past 18446744073709551615: `18446744073709551616`",
    ),
    (
        b"article,number\nbolt,18446744073709551615\nnut,0\nnut,1\n",
        "4: total past 18446744073709551615",
    ),
    (b"article,number\nbolt,x\nbo\xfft,1\n", "2: no number: `x`"),
];

type ListTally = Tally<Vec<String>, FixedState>;

// Adds an article with its number to what is said.
fn say_row(said: &mut String, article: &[String], number: usize) -> Result<(), AllocError> {
    said.push_str("[")?;
    for field in article {
        said.push_str(field.as_str())?;
        said.push_str(" ")?;
    }
    write!(said, "{number}]")
}

// Each article of a tally with its number, articles in ascending order.
fn said_of_tally(alloc: Global, tally: &ListTally, none: &ListTally) -> Result<String, AllocError> {
    let mut said = String::new(alloc);
    for row in &rows_of_tallies(alloc, tally, none)? {
        say_row(&mut said, row.article, row.ordered)?;
    }
    Ok(said)
}

// What a text says that is read so. Without a column of numbers each line counts as one.
pub(crate) fn said_of_lines(
    alloc: Global,
    text: &[u8],
    keys: &[&str],
    number: Option<&str>,
    reading: Reading,
    form: LineForm,
) -> Result<String, AllocError> {
    let state = FixedState::new();
    match read_tally(alloc, state, text, keys, number, reading, form) {
        Ok(tally) => said_of_tally(alloc, &tally, &empty_tally(alloc, state)),
        Err(error) => format!(in alloc; "{error}"),
    }
}

// What a text says that is read so, with its numbers, and its fields as they are.
fn said_of(
    alloc: Global,
    text: &[u8],
    keys: &[&str],
    reading: Reading,
) -> Result<String, AllocError> {
    let form = LineForm::plain();
    said_of_lines(alloc, text, keys, Some("number"), reading, form)
}

// What a text says that is read so, its key columns in one text.
fn said_by_keys(
    alloc: Global,
    text: &[u8],
    keys: &str,
    reading: Reading,
) -> Result<String, AllocError> {
    let keys = names_in(alloc, keys)?;
    said_of(alloc, text, &keys, reading)
}

#[test]
fn texts_are_read(rt: HostRuntime) -> Result<(), Fail> {
    for (text, wanted) in &TEXTS {
        let said = said_of(rt.alloc(), text, &["article"], Reading::plain())?;
        assert_eq!(rt; said.as_str(), *wanted);
    }
    Ok(())
}

// A text, its key columns, its delimiter, decimals and mark, and what it says.
const READINGS: [(&[u8], &str, &str, u32, &str, &str); 22] = [
    (
        b"article;number\nbolt;1,5\n",
        "article",
        ";",
        2,
        ",",
        "[bolt 150]",
    ),
    (
        b"article\tnumber\nnut, M8\t7\n",
        "article",
        "tab",
        0,
        ".",
        "[nut, M8 7]",
    ),
    (
        b"article\tnumber\nnut\t7\n",
        "article",
        "\\t",
        1,
        ".",
        "[nut 70]",
    ),
    (
        b"article;number\n\"a;\"\"b\";7\n",
        "article",
        ";",
        0,
        ".",
        "[a;\"b 7]",
    ),
    (
        b"article;number\na;7\"\n",
        "article",
        ";",
        0,
        ".",
        "2: quote in a field without quotes",
    ),
    (
        b"article,number\na,7\n",
        "article",
        ";",
        0,
        ".",
        "1: no column `article`; there are: `article,number`; is the delimiter `,`?",
    ),
    (
        b"number,lot,article\n1,L8,a\n2,,b\n",
        "article,lot",
        ",",
        0,
        ".",
        "[a L8 1][b  2]",
    ),
    (
        b"number,article\n1,a\n",
        "article,lot",
        ",",
        0,
        ".",
        "1: no column `lot`; there are: `number`, `article`",
    ),
    (
        b"article,number\na,1.5\na,0.25\na,007.10\na,3\n",
        "article",
        ",",
        2,
        ".",
        "[a 1185]",
    ),
    (
        b"article,number\na,184467440737095516.15\n",
        "article",
        ",",
        2,
        ".",
        "[a 18446744073709551615]",
    ),
    (
        b"article,number\na,184467440737095516.16\n",
        "article",
        ",",
        2,
        ".",
        "2: number past 184467440737095516.15: `184467440737095516.16`",
    ),
    (
        b"article,number\na,18446744074\n",
        "article",
        ",",
        9,
        ".",
        "2: number past 18446744073.709551615: `18446744074`",
    ),
    (
        b"article,number\na,184467440737095516.15\nb,0.01\n",
        "article",
        ",",
        2,
        ".",
        "3: total past 184467440737095516.15",
    ),
    (
        b"article,number\na,1.555\n",
        "article",
        ",",
        2,
        ".",
        "2: more than 2 decimals: `1.555`",
    ),
    (
        b"article,number\na,1.550\n",
        "article",
        ",",
        2,
        ".",
        "2: more than 2 decimals: `1.550`",
    ),
    (
        b"article,number\na,.5\n",
        "article",
        ",",
        2,
        ".",
        "2: no number: `.5`",
    ),
    (
        b"article,number\na,5.\n",
        "article",
        ",",
        2,
        ".",
        "2: no number: `5.`",
    ),
    (
        b"article,number\na,\"1,5\"\n",
        "article",
        ",",
        2,
        ".",
        "2: no number: `1,5`",
    ),
    (
        b"article,number\na,1.2.3\n",
        "article",
        ",",
        9,
        ".",
        "2: no number: `1.2.3`",
    ),
    (
        b"article,number\na,+1.5\n",
        "article",
        ",",
        2,
        ".",
        "2: no number: `+1.5`",
    ),
    (
        b"article,number\na,1.+5\n",
        "article",
        ",",
        2,
        ".",
        "2: no number: `1.+5`",
    ),
    (
        b"article,number\na,1e1\n",
        "article",
        ",",
        2,
        ".",
        "2: no number: `1e1`",
    ),
];

// Returns the scale of `decimals` decimals after this mark.
fn scale_of(decimals: u32, mark: &str) -> Scale {
    let mark = if mark == "," {
        Mark::Comma
    } else {
        Mark::Point
    };
    Scale::new(decimals, mark).unwrap_or(Scale::whole())
}

#[test]
fn other_texts_are_read(rt: HostRuntime) -> Result<(), Fail> {
    for (text, keys, delimiter, decimals, mark, wanted) in &READINGS {
        let reading = Reading {
            delimiter: Delimiter::named(delimiter),
            scale: scale_of(*decimals, mark),
        };
        let said = said_by_keys(rt.alloc(), text, keys, reading)?;
        assert_eq!(rt; said.as_str(), *wanted);
    }
    Ok(())
}

// A text, its decimals, the greatest number, and what the text says, the same as a tally and as a list.
const LIMITED: [(&[u8], u32, usize, &str); 6] = [
    (b"article,number\na,60\nb,39\n", 0, 99, "[a 60][b 39]"),
    (
        b"article,number\na,100\nb,x\n",
        0,
        99,
        "2: number past 99: `100`",
    ),
    (b"article,number\na,60\nb,40\n", 0, 99, "3: total past 99"),
    (
        b"article,number\na,0.60\nb,0.4\n",
        2,
        99,
        "3: total past 0.99",
    ),
    (
        b"article,number\na,9223372036854775808\n",
        0,
        9223372036854775807,
        "2: number past 9223372036854775807: `9223372036854775808`",
    ),
    (
        b"article,number\na,99999999999999999999\n",
        0,
        9223372036854775807,
        "2: number past 9223372036854775807: `99999999999999999999`",
    ),
];

// What a list says that is read so, in the order of its lines.
fn said_of_list(alloc: Global, text: &[u8], reading: Reading) -> Result<String, AllocError> {
    let counts = match read_counts_as(alloc, text, "article", "number", reading) {
        Ok(counts) => counts,
        Err(error) => return format!(in alloc; "{error}"),
    };
    let mut said = String::new(alloc);
    for (article, number) in &counts {
        write!(said, "[{article} {number}]")?;
    }
    Ok(said)
}

#[test]
fn numbers_past_a_greatest_are_rejected(rt: HostRuntime) -> Result<(), Fail> {
    for (text, decimals, most, wanted) in &LIMITED {
        let reading = Reading {
            delimiter: Delimiter::Comma,
            scale: scale_of(*decimals, ".").at_most(*most),
        };
        let said = said_of(rt.alloc(), text, &["article"], reading)?;
        assert_eq!(rt; said.as_str(), *wanted);
        let said = said_of_list(rt.alloc(), text, reading)?;
        assert_eq!(rt; said.as_str(), *wanted);
    }
    Ok(())
}

// A list, and its entries in the order of its lines: each line has one, also with the number 0.
const LISTS: [(&[u8], &str); 3] = [
    (b"article,number\n", ""),
    (
        b"article,number\nnut,0\nbolt,5\nnut,2\nnut,0\n",
        "[nut 0][bolt 5][nut 2][nut 0]",
    ),
    (
        b"article,number\nbolt,18446744073709551615\nnut,1\n",
        "3: total past 18446744073709551615",
    ),
];

#[test]
fn lists_are_read(rt: HostRuntime) -> Result<(), Fail> {
    for (text, wanted) in &LISTS {
        let said = said_of_list(rt.alloc(), text, Reading::plain())?;
        assert_eq!(rt; said.as_str(), *wanted);
    }
    Ok(())
}

// A text, its decimals, and the status of a program that reads it, 0 if nothing is wrong.
const STATUSES: [(&[u8], u32, u8); 6] = [
    (b"article,number\na,18446744073709551615\n", 0, 0),
    (b"article,number\na,18446744073709551615\nb,1\n", 0, 5),
    (b"article,number\na,184467440737095516.15\nb,0.01\n", 2, 5),
    (b"article,number\na,18446744073709551616\n", 0, 2),
    (b"article,number\na,184467440737095516.16\n", 2, 2),
    (b"article,number\n\"a,1\n", 0, 2),
];

// The status of a program that reads this text.
fn status_of(alloc: Global, text: &[u8], decimals: u32) -> u8 {
    let reading = Reading {
        delimiter: Delimiter::Comma,
        scale: scale_of(decimals, "."),
    };
    let tally = read_tally::<String, _>(
        alloc,
        FixedState::new(),
        text,
        &["article"],
        Some("number"),
        reading,
        LineForm::plain(),
    );
    match in_file(alloc, "ordered.csv", tally) {
        Ok(_) => 0,
        Err(trouble) => trouble.status(),
    }
}

#[test]
fn statuses_are_returned(rt: HostRuntime) -> Result<(), Fail> {
    for (text, decimals, wanted) in &STATUSES {
        assert_eq!(rt; status_of(rt.alloc(), text, *decimals), *wanted);
    }
    Ok(())
}

// Numbers of units, decimals, mark, and how they are written.
const NUMBERS: [(usize, u32, &str, &str); 8] = [
    (0, 0, ".", "0"),
    (0, 3, ".", "0.000"),
    (5, 2, ".", "0.05"),
    (150, 2, ",", "1,50"),
    (100, 1, ".", "10.0"),
    (1000000007, 9, ".", "1.000000007"),
    (18446744073709551615, 0, ".", "18446744073709551615"),
    (18446744073709551615, 9, ",", "18446744073,709551615"),
];

#[test]
fn numbers_are_written_and_read(rt: HostRuntime) -> Result<(), Fail> {
    for (number, decimals, mark, wanted) in &NUMBERS {
        let scale = scale_of(*decimals, mark);
        let text = write_decimal(rt.alloc(), *number, scale)?;
        assert_eq!(rt; text.as_str(), *wanted);
        assert_eq!(rt; read_decimal(wanted, scale), Some(*number));
    }
    assert!(rt; Scale::new(10, Mark::Point).is_none());
    Ok(())
}

#[test]
fn names_are_told_apart(rt: HostRuntime) -> Result<(), Fail> {
    let names = names_in(rt.alloc(), "article,lot,,lot")?;
    assert_eq!(rt; names.len(), 4);
    assert_eq!(rt; repeated(&names), Some("lot"));
    assert_eq!(rt; repeated(&["a", "b"]), None);
    for name in &["ordered", "delivered", "missing", "surplus"] {
        assert!(rt; is_reserved(name));
    }
    assert!(rt; !is_reserved("Missing") && !is_reserved("article"));
    Ok(())
}
