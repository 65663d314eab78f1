//! Lists that are read without numbers, and fields that are trimmed and folded. What is wanted was found by hand.
use crate::lists::said_of_lines;
use hashbag_csv::counts::Reading;
use hashbag_csv::delimiter::Delimiter;
use hashbag_csv::groups::GroupMark;
use hashbag_csv::key_form::KeyForm;
use hashbag_csv::line_form::LineForm;
use hashbag_csv::number_form::NumberForm;
use hashbag_csv::scale::{Mark, Scale};
use std::test::Fail;

// Texts without numbers, their decimals, and what they say.
const EACH_LINE: [(&[u8], u32, &str); 6] = [
    (b"article\n", 0, ""),
    (b"article\nnut\nbolt\n\nnut", 0, "[bolt 1][nut 2]"),
    (b"article\nnut\nnut\n", 2, "[nut 200]"),
    (b"article\nnut\n", 9, "[nut 1000000000]"),
    (
        b"box,article,number\nx,nut,7\nx,nut,many\nx,bolt,\n",
        0,
        "[bolt 1][nut 2]",
    ),
    (b"article\nnut,7\n", 0, "2: 1 fields wanted, 2 found"),
];

#[test]
fn each_line_counts_as_one(rt: HostRuntime) -> Result<(), Fail> {
    let form = LineForm::plain();
    for (text, decimals, wanted) in &EACH_LINE {
        let reading = Reading {
            delimiter: Delimiter::Comma,
            scale: Scale::new(*decimals, Mark::Point).unwrap_or(Scale::whole()),
        };
        let said = said_of_lines(rt.alloc(), text, &["article"], None, reading, form)?;
        assert_eq!(rt; said.as_str(), *wanted);
    }
    Ok(())
}

#[test]
fn total_of_lines_is_bounded(rt: HostRuntime) -> Result<(), Fail> {
    let form = LineForm::plain();
    let reading = Reading {
        delimiter: Delimiter::Comma,
        scale: Scale::whole().at_most(2),
    };
    let text = b"article\na\nb\n";
    let said = said_of_lines(rt.alloc(), text, &["article"], None, reading, form)?;
    assert_eq!(rt; said.as_str(), "[a 1][b 1]");
    let text = b"article\na\nb\na\n";
    let said = said_of_lines(rt.alloc(), text, &["article"], None, reading, form)?;
    assert_eq!(rt; said.as_str(), "4: total past 2");
    Ok(())
}

// A text, whether its fields are trimmed and folded, and what it says.
const FORMS: [(&[u8], bool, bool, &str); 12] = [
    (b"k,number\n a ,1\na,2\n", false, false, "[ a  1][a 2]"),
    (b"k,number\n a ,1\na,2\n\t a\t\t,4\n", true, false, "[a 7]"),
    (b"k,number\n \t ,1\n,2\n", true, false, "[ 3]"),
    (
        b"k,number\na  b,1\n a  b,2\na b,4\n",
        true,
        false,
        "[a  b 3][a b 4]",
    ),
    (
        b"k,number\n\"\na\n\",1\na,2\n\"a\r\",4\n",
        true,
        false,
        "[\na\n 1][a 2][a\r 4]",
    ),
    (
        b"k,number\n\xc2\xa0a,1\na,2\n",
        true,
        false,
        "[a 2][\u{a0}a 1]",
    ),
    (b"k,number\n A ,1\na,2\nA,4\n", false, true, "[ a  1][a 6]"),
    (b"k,number\n A ,1\na,2\nA,4\n", true, true, "[a 7]"),
    (
        b"k,number\nStra\xc3\x9fe,1\nSTRASSE,2\n",
        false,
        true,
        "[strasse 3]",
    ),
    (
        b"k,number\n\xce\xa3,1\n\xcf\x83,2\n\xcf\x82,4\n",
        false,
        true,
        "[\u{3c3} 7]",
    ),
    (
        b"k,number\nA,1\n\xff,2\n",
        true,
        true,
        "3: column `k` is not UTF-8; if it is Windows-1252, `--encoding Windows-1252`",
    ),
    (
        b"K,number\nA,1\n",
        true,
        true,
        "1: no column `k`; there are: `K`, `number`",
    ),
];

#[test]
fn fields_are_trimmed_and_folded(rt: HostRuntime) -> Result<(), Fail> {
    for (text, trim, fold, wanted) in &FORMS {
        let form = LineForm {
            key: KeyForm {
                trim: *trim,
                fold: *fold,
            },
            number: LineForm::plain().number,
            allows_short: false,
            no_header: false,
        };
        let number = Some("number");
        let said = said_of_lines(rt.alloc(), text, &["k"], number, Reading::plain(), form)?;
        assert_eq!(rt; said.as_str(), *wanted);
    }
    Ok(())
}

// A text, its decimals, and what it says if an empty field of numbers is 0.
const BLANKS: [(&[u8], u32, &str); 6] = [
    (b"k,number\nnut,\nbolt,2\nbolt,\"\"\n", 0, "[bolt 2][nut 0]"),
    (b"k,number\nnut,\nnut,1.5\n", 2, "[nut 150]"),
    (b"number,k\n,\n", 0, "[ 0]"),
    (b"k,number\nnut, \n", 0, "2: no number: ` `"),
    (b"k,number\nnut,\nbolt,x\n", 0, "3: no number: `x`"),
    (b"k,number\nnut\n", 0, "2: 2 fields wanted, 1 found"),
];

#[test]
fn blank_is_zero(rt: HostRuntime) -> Result<(), Fail> {
    for (text, decimals, wanted) in &BLANKS {
        let form = LineForm {
            key: LineForm::plain().key,
            number: NumberForm {
                blank_is_zero: true,
                group: None,
            },
            allows_short: false,
            no_header: false,
        };
        let reading = Reading {
            delimiter: Delimiter::Comma,
            scale: Scale::new(*decimals, Mark::Point).unwrap_or(Scale::whole()),
        };
        let said = said_of_lines(rt.alloc(), text, &["k"], Some("number"), reading, form)?;
        assert_eq!(rt; said.as_str(), *wanted);
    }
    Ok(())
}

// A text, its decimals, the mark before them, that between groups of digits, and what it says.
const GROUPS: [(&[u8], u32, Mark, GroupMark, &str); 19] = [
    (
        b"k;number\na;1.000,50\nb;1000,5\nc;100\nd;12.345.678\n",
        2,
        Mark::Comma,
        GroupMark::Point,
        "[a 100050][b 100050][c 10000][d 1234567800]",
    ),
    (
        b"k;number\na;1'000.5\n",
        1,
        Mark::Point,
        GroupMark::Apostrophe,
        "[a 10005]",
    ),
    (
        b"k;number\na;1 234 567\n",
        0,
        Mark::Point,
        GroupMark::Space,
        "[a 1234567]",
    ),
    (
        b"k;number\na;1\xc2\xa0234\xe2\x80\xaf567 890,5\nb;100\n",
        1,
        Mark::Comma,
        GroupMark::NoBreak,
        "[a 12345678905][b 1000]",
    ),
    (
        b"k;number\na;1\xe2\x80\xaf00\n",
        0,
        Mark::Point,
        GroupMark::NoBreak,
        "2: groups of three digits wanted: `1\u{202f}00`",
    ),
    (
        b"k;number\na;1\xc2\xa0000\n",
        0,
        Mark::Point,
        GroupMark::Space,
        "2: no number: `1\u{a0}000`",
    ),
    (
        b"k;number\na;1,000\n",
        0,
        Mark::Point,
        GroupMark::Comma,
        "[a 1000]",
    ),
    (
        b"k;number\na;1.00,5\n",
        2,
        Mark::Comma,
        GroupMark::Point,
        "2: groups of three digits wanted: `1.00,5`",
    ),
    (
        b"k;number\na;1..000\n",
        2,
        Mark::Comma,
        GroupMark::Point,
        "2: groups of three digits wanted: `1..000`",
    ),
    (
        b"k;number\na;.100\n",
        2,
        Mark::Comma,
        GroupMark::Point,
        "2: groups of three digits wanted: `.100`",
    ),
    (
        b"k;number\na;1000.000\n",
        2,
        Mark::Comma,
        GroupMark::Point,
        "2: groups of three digits wanted: `1000.000`",
    ),
    (
        b"k;number\na;100.\n",
        2,
        Mark::Comma,
        GroupMark::Point,
        "2: groups of three digits wanted: `100.`",
    ),
    (
        b"k;number\na;1.00x\n",
        2,
        Mark::Comma,
        GroupMark::Point,
        "2: groups of three digits wanted: `1.00x`",
    ),
    (
        b"k;number\na;1.000,5.5\n",
        2,
        Mark::Comma,
        GroupMark::Point,
        "2: no number: `1.000,5.5`",
    ),
    (
        b"k;number\na;1.000,555\n",
        2,
        Mark::Comma,
        GroupMark::Point,
        "2: more than 2 decimals: `1.000,555`",
    ),
    (
        b"k;number\na;1.000,5\n",
        0,
        Mark::Comma,
        GroupMark::Point,
        "2: whole numbers only: `1.000,5`",
    ),
    (
        b"k;number\na;18.446.744.073.709.551.616\n",
        0,
        Mark::Comma,
        GroupMark::Point,
        "2: number past 18446744073709551615: `18.446.744.073.709.551.616`",
    ),
    (
        b"k;number\na;x\n",
        0,
        Mark::Comma,
        GroupMark::Point,
        "2: no number: `x`",
    ),
    (
        b"k;number\na;\n",
        0,
        Mark::Comma,
        GroupMark::Point,
        "2: no number: ``",
    ),
];

#[test]
fn digits_are_in_groups(rt: HostRuntime) -> Result<(), Fail> {
    for (text, decimals, mark, group, wanted) in &GROUPS {
        let form = LineForm {
            key: LineForm::plain().key,
            number: NumberForm {
                blank_is_zero: false,
                group: Some(*group),
            },
            allows_short: false,
            no_header: false,
        };
        let reading = Reading {
            delimiter: Delimiter::Semicolon,
            scale: Scale::new(*decimals, *mark).unwrap_or(Scale::whole()),
        };
        let said = said_of_lines(rt.alloc(), text, &["k"], Some("number"), reading, form)?;
        assert_eq!(rt; said.as_str(), *wanted);
    }
    Ok(())
}

// A text, its key columns, whether an empty field of numbers is 0, and what it says if records may be short.
const SHORT: [(&[u8], &[&str], bool, &str); 8] = [
    (
        b"k,number,note\na,1\nb,2,x\na,4\n",
        &["k"],
        false,
        "[a 5][b 2]",
    ),
    (b"number,k\n1\n2,a\n", &["k"], false, "[ 1][a 2]"),
    (
        b"number,k,lot\n1,a\n2\n4,a,\n",
        &["k", "lot"],
        false,
        "[  2][a  5]",
    ),
    (b"k,number\na\nb,2\n", &["k"], true, "[a 0][b 2]"),
    (b"k,number\na,1\nb\n", &["k"], false, "3: no number: ``"),
    (
        b"k,number\na,1\nb,2,\n",
        &["k"],
        true,
        "3: 2 fields wanted, 3 found",
    ),
    (b"k,number\na,1\n\nb,2\n", &["k"], true, "[a 1][b 2]"),
    (
        b"k,number\na,1\n\"b\n",
        &["k"],
        true,
        "3: quote never closed",
    ),
];

#[test]
fn records_may_be_short(rt: HostRuntime) -> Result<(), Fail> {
    for (text, keys, blank_is_zero, wanted) in &SHORT {
        let form = LineForm {
            key: LineForm::plain().key,
            number: NumberForm {
                blank_is_zero: *blank_is_zero,
                group: None,
            },
            allows_short: true,
            no_header: false,
        };
        let number = Some("number");
        let said = said_of_lines(rt.alloc(), text, *keys, number, Reading::plain(), form)?;
        assert_eq!(rt; said.as_str(), *wanted);
    }
    Ok(())
}
