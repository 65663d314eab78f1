//! What is decided of a stock that is kept. The expected values were found by hand.
use hashbag::FixedState;
use hashbag_csv::counts::Reading;
use hashbag_csv::delimiter::Delimiter;
use hashbag_csv::forms::{Form, rows_text};
use hashbag_csv::scale::{Mark, Scale};
use hashbag_ledger_lib::date_forms::{DateForm, iso_of};
use hashbag_ledger_lib::dated::balance_at;
use hashbag_ledger_lib::dates::is_date;
use hashbag_ledger_lib::extras::{Extra, ExtraColumns, opposite_extras, read_extras};
use hashbag_ledger_lib::ledger::booking::{book_batch, count_refused, refusals_from};
use hashbag_ledger_lib::listings::{Batches, History};
use hashbag_ledger_lib::movements::{Change, Entry, Movement, Outcome, Place, Refusal};
use hashbag_ledger_lib::numbers::{MOST, change_of, number_of, plain_change, signed, size_of};
use hashbag_ledger_lib::once::{Batch, Kind, batch_of, entered_before, undone_by};
use hashbag_ledger_lib::pairs::zip;
use hashbag_ledger_lib::rows::{RowChange, changed_rows};
use hashbag_ledger_lib::sealing::{Draft, digest_of, sealed_rows, wrong_seal};
use hashbag_ledger_lib::undoing::{Undo, opposites, take_back};
use hashbag_ledger_lib::verifying::{
    KeptMovement, KeptRefusal, wrong_batch, wrong_number, wrong_refusal,
};
use std::alloc::Global;
use std::test::Fail;

// Changes and their numbers.
const NUMBERS: [(&str, usize, i64); 6] = [
    ("in", 0, 0),
    ("out", 0, 0),
    ("in", 7, 7),
    ("out", 7, -7),
    ("in", 9_223_372_036_854_775_807, 9_223_372_036_854_775_807),
    ("out", 9_223_372_036_854_775_807, -9_223_372_036_854_775_807),
];

fn change(kind: &str, quantity: usize) -> Change {
    if kind == "in" {
        Change::In(quantity)
    } else {
        Change::Out(quantity)
    }
}

#[test]
fn changes_are_numbers(rt: HostRuntime) -> Result<(), Fail> {
    for (kind, quantity, number) in &NUMBERS {
        let change = change(kind, *quantity);
        assert_eq!(rt; number_of(change), Some(*number));
        assert_eq!(rt; change_of(*number), plain_change(change));
    }
    assert_eq!(rt; number_of(Change::In(9_223_372_036_854_775_808)), None);
    assert_eq!(rt; number_of(Change::Out(usize::MAX)), None);
    assert_eq!(rt; plain_change(Change::Out(0)), Change::In(0));
    assert_eq!(rt; change_of(i64::MIN), Change::Out(9_223_372_036_854_775_808));
    assert_eq!(rt; size_of(Change::Out(3)), 3);
    assert_eq!(rt; signed(MOST), Some(i64::MAX));
    Ok(())
}

// Returns a balance of owned texts.
fn balance_of(alloc: Global, list: &[(&str, usize)]) -> Result<Vec<(String, usize)>, Fail> {
    let mut balance = Vec::new(alloc);
    for (article, number) in list {
        balance.push((article.to_string(alloc)?, *number))?;
    }
    Ok(balance)
}

// Returns movements of owned texts, on lines from 2 on.
fn movements_of(
    alloc: Global,
    list: &[(&str, &str, usize)],
) -> Result<Vec<Movement<String>>, Fail> {
    let mut movements = Vec::new(alloc);
    let mut line = 2u64;
    for (article, kind, quantity) in list {
        let place = Place { file: 0, line };
        movements.push(Movement {
            place,
            article: article.to_string(alloc)?,
            change: change(kind, *quantity),
        })?;
        line = line.saturating_add(1);
    }
    Ok(movements)
}

// A balance, another one, and what becomes of the rows of the first.
const ROWS: [(&[(&str, usize)], &[(&str, usize)], &str); 6] = [
    (&[], &[], ""),
    (&[("a", 1)], &[("a", 1)], ""),
    (&[("a", 1), ("b", 2)], &[("a", 3), ("b", 2)], "[a 3]"),
    (&[("b", 1)], &[("a", 1), ("b", 1), ("c", 9)], "[a 1][c 9]"),
    (&[("a", 1), ("b", 1), ("c", 9)], &[("b", 1)], "[-a][-c]"),
    (
        &[("a", 1), ("c", 2)],
        &[("b", 1), ("d", 2)],
        "[-a][b 1][-c][d 2]",
    ),
];

// What becomes of the rows of a balance, in one line.
fn changes_between(
    alloc: Global,
    before: &[(String, usize)],
    after: &[(String, usize)],
) -> Result<String, Fail> {
    let mut said = String::new(alloc);
    for change in &changed_rows(alloc, before, after)? {
        match change {
            RowChange::Put(article, number) => write!(said, "[{article} {number}]")?,
            RowChange::Remove(article) => write!(said, "[-{article}]")?,
        }
    }
    Ok(said)
}

#[test]
fn rows_change(rt: HostRuntime) -> Result<(), Fail> {
    let alloc = rt.alloc();
    for (before, after, wanted) in &ROWS {
        let (before, after) = (balance_of(alloc, before)?, balance_of(alloc, after)?);
        let said = changes_between(alloc, &before, &after)?;
        assert_eq!(rt; said.as_str(), *wanted);
    }
    Ok(())
}

// Returns movements in one line.
fn said_of(alloc: Global, movements: &[Movement<String>]) -> Result<String, Fail> {
    let mut said = String::new(alloc);
    for movement in movements {
        let line = movement.place.line;
        let article = movement.article.as_str();
        match movement.change {
            Change::In(n) => write!(said, "[{line} {article} in {n}]")?,
            Change::Out(n) => write!(said, "[{line} {article} out {n}]")?,
        }
    }
    Ok(said)
}

// A balance, a batch that is taken back, and the balance afterwards or the movements that are refused.
const UNDOS: [(&[(&str, usize)], &[(&str, &str, usize)], &str); 5] = [
    (&[], &[], ""),
    (
        &[("a", 5), ("b", 2)],
        &[("a", "in", 5), ("c", "out", 3)],
        "b 2 c 3 ",
    ),
    (&[("a", 4)], &[("a", "in", 5)], "2: a out 5, 4 there "),
    (&[("a", 4)], &[("a", "in", 5), ("a", "out", 1)], ""),
    (
        &[("a", 4), ("b", 1)],
        &[("b", "in", 1), ("a", "in", 3), ("a", "in", 2)],
        "4: a out 2, 1 there ",
    ),
];

// Returns a balance in one line.
fn balance_in_line(alloc: Global, balance: &[(String, usize)]) -> Result<String, Fail> {
    let mut said = String::new(alloc);
    for (article, number) in balance {
        write!(said, "{article} {number} ")?;
    }
    Ok(said)
}

// Returns refusals in one line.
fn refusals_in_line(alloc: Global, refusals: &[Refusal<String>]) -> Result<String, Fail> {
    let mut said = String::new(alloc);
    for refusal in refusals {
        let line = refusal.place.line;
        let article = refusal.article.as_str();
        let (asked, there) = (refusal.asked, refusal.there);
        write!(said, "{line}: {article} out {asked}, {there} there ")?;
    }
    Ok(said)
}

// Returns what a batch that is taken back leaves, in one line.
fn left_by(
    alloc: Global,
    kept: Vec<(String, usize)>,
    batch: Vec<Movement<String>>,
) -> Result<String, Fail> {
    match take_back(alloc, FixedState::new(), kept, batch) {
        Ok(Undo::Done(booked)) => balance_in_line(alloc, &booked.balance),
        Ok(Undo::Refused(refusals)) => refusals_in_line(alloc, &refusals),
        Err(_) => Err(Fail::from("not taken back")),
    }
}

#[test]
fn batches_are_taken_back(rt: HostRuntime) -> Result<(), Fail> {
    let alloc = rt.alloc();
    for (kept, batch, wanted) in &UNDOS {
        let kept = balance_of(alloc, kept)?;
        let said = left_by(alloc, kept, movements_of(alloc, batch)?)?;
        assert_eq!(rt; said.as_str(), *wanted);
    }
    Ok(())
}

// Returns what became of movements, in one line.
fn outcomes_of(alloc: Global, entries: &[Entry<String>]) -> Result<String, Fail> {
    let mut said = String::new(alloc);
    for entry in entries {
        match entry.outcome {
            Outcome::Entered { after } => write!(said, "{after} after ")?,
            Outcome::Refused { there } => write!(said, "{there} there ")?,
        }
    }
    Ok(said)
}

// A balance, a batch, and what becomes of each movement of it.
const OUTCOMES: [(&[(&str, usize)], &[(&str, &str, usize)], &str); 3] = [
    (&[], &[], ""),
    (
        &[("b", 3)],
        &[
            ("a", "in", 5),
            ("a", "out", 9),
            ("b", "out", 3),
            ("a", "out", 2),
        ],
        "5 after 5 there 0 after 3 after ",
    ),
    (
        &[],
        &[("a", "out", 1), ("a", "out", 0), ("a", "in", 1)],
        "0 there 0 after 1 after ",
    ),
];

#[test]
fn each_movement_has_its_outcome(rt: HostRuntime) -> Result<(), Fail> {
    let alloc = rt.alloc();
    for (kept, batch, wanted) in &OUTCOMES {
        let (kept, batch) = (balance_of(alloc, kept)?, movements_of(alloc, batch)?);
        let Ok(booked) = book_batch(alloc, FixedState::new(), kept, batch) else {
            return Err(Fail::from("not booked"));
        };
        assert_eq!(rt; outcomes_of(alloc, &booked.entries)?.as_str(), *wanted);
        let refused = wanted.matches("there").count();
        assert_eq!(rt; count_refused(&booked.entries), refused);
        assert_eq!(rt; refusals_from(alloc, booked.entries)?.len(), refused);
    }
    Ok(())
}

#[test]
fn opposites_come_in_first(rt: HostRuntime) -> Result<(), Fail> {
    let alloc = rt.alloc();
    let batch = movements_of(
        alloc,
        &[
            ("a", "in", 1),
            ("b", "out", 2),
            ("c", "in", 3),
            ("d", "out", 4),
        ],
    )?;
    let all = opposites(alloc, batch)?;
    assert_eq!(rt;
        said_of(alloc, &all)?.as_str(),
        "[3 b in 2][5 d in 4][2 a out 1][4 c out 3]"
    );
    Ok(())
}

#[test]
fn a_balance_has_a_limit(rt: HostRuntime) -> Result<(), Fail> {
    let alloc = rt.alloc();
    let kept = balance_of(alloc, &[("a", MOST)])?;
    let one = movements_of(alloc, &[("a", "out", 1), ("b", "in", 1)])?;
    let Ok(booked) = book_batch(alloc, FixedState::new(), kept, one) else {
        return Err(Fail::from("not entered"));
    };
    assert_eq!(rt; booked.balance.len(), 2);
    assert_eq!(rt; count_refused(&booked.entries), 0);
    let more = movements_of(alloc, &[("a", "in", 1)])?;
    assert!(rt; book_batch(alloc, FixedState::new(), booked.balance, more).is_err());
    Ok(())
}

// A balance that is kept, one that is counted, and the first article that differs, with its two numbers.
const BALANCES: [(&[(&str, usize)], &[(&str, usize)], &str); 7] = [
    (&[], &[], ""),
    (&[("a", 1), ("b", 2)], &[("a", 1), ("b", 2)], ""),
    (&[("a", 1), ("b", 2)], &[("a", 1), ("b", 3)], "b 2 3"),
    (&[("a", 1)], &[("a", 1), ("b", 3)], "b 0 3"),
    (&[("a", 1), ("b", 2)], &[("a", 1)], "b 2 0"),
    (&[("a", 1), ("c", 2)], &[("b", 1), ("c", 2)], "a 1 0"),
    (&[("b", 1)], &[("a", 4), ("b", 2)], "a 0 4"),
];

// Returns the first article that differs, with its numbers.
fn difference(
    alloc: Global,
    kept: &[(String, usize)],
    counted: &[(String, usize)],
) -> Result<String, Fail> {
    match wrong_number(kept, counted) {
        Some(wrong) => {
            let (article, stored, made) = (wrong.article, wrong.kept, wrong.counted);
            Ok(format!(in alloc; "{article} {stored} {made}")?)
        }
        None => Ok(String::new(alloc)),
    }
}

#[test]
fn the_first_wrong_number_is_found(rt: HostRuntime) -> Result<(), Fail> {
    let alloc = rt.alloc();
    for (kept, counted, wanted) in &BALANCES {
        let (kept, counted) = (balance_of(alloc, kept)?, balance_of(alloc, counted)?);
        let said = difference(alloc, &kept, &counted)?;
        assert_eq!(rt; said.as_str(), *wanted);
    }
    Ok(())
}

// Returns refusals of movements of these numbers, with what was there.
fn refusals_of(alloc: Global, list: &[(usize, usize)]) -> Result<Vec<Refusal<String>>, Fail> {
    let mut refusals = Vec::new(alloc);
    for (number, there) in list {
        let place = Place {
            file: *number,
            line: 1,
        };
        refusals.push(Refusal {
            place,
            article: "a".to_string(alloc)?,
            asked: 9,
            there: *there,
        })?;
    }
    Ok(refusals)
}

// The refusals that are kept.
const KEPT: [KeptRefusal; 2] = [
    KeptRefusal {
        movement: 3,
        there: 1,
    },
    KeptRefusal {
        movement: 8,
        there: 0,
    },
];

// Refusals that are counted, and the movement of the first that differs, or 0.
const REFUSALS: [(&[(usize, usize)], usize); 6] = [
    (&[(3, 1), (8, 0)], 0),
    (&[(3, 1)], 8),
    (&[(3, 1), (8, 0), (9, 4)], 9),
    (&[(3, 2), (8, 0)], 3),
    (&[(2, 1), (3, 1), (8, 0)], 2),
    (&[(3, 1), (7, 0), (8, 0)], 7),
];

#[test]
fn the_first_wrong_refusal_is_found(rt: HostRuntime) -> Result<(), Fail> {
    for (counted, wanted) in &REFUSALS {
        let counted = refusals_of(rt.alloc(), counted)?;
        let wrong = wrong_refusal(KEPT.as_slice(), &counted);
        assert_eq!(rt; wrong.unwrap_or(0), *wanted);
    }
    Ok(())
}

// Returns a batch of this number, with this hash, that undoes another, with these numbers of movements and refusals.
fn batch_with(
    alloc: Global,
    number: i64,
    sha256: &str,
    undoes: Option<i64>,
    counts: (u64, u64),
) -> Result<Batch, Fail> {
    Ok(Batch {
        number,
        file: format!(in alloc; "file {number}.csv")?,
        sha256: sha256.to_string(alloc)?,
        kind: (if undoes.is_some() { "undo" } else { "moves" }).to_string(alloc)?,
        undoes,
        time: "2026-01-02 03:04:05".to_string(alloc)?,
        movements: counts.0,
        refused: counts.1,
        seal: String::new(alloc),
    })
}

// Returns three batches, of which the third undoes the first.
fn three_batches(alloc: Global) -> Result<Vec<Batch>, Fail> {
    let mut batches = Vec::new(alloc);
    batches.push(batch_with(alloc, 1, "aa", None, (2, 1))?)?;
    batches.push(batch_with(alloc, 2, "bb", None, (0, 0))?)?;
    batches.push(batch_with(alloc, 5, "", Some(1), (1, 0))?)?;
    Ok(batches)
}

#[test]
fn batches_are_found(rt: HostRuntime) -> Result<(), Fail> {
    let batches = three_batches(rt.alloc())?;
    assert_eq!(rt;
        entered_before(&batches, "bb").map(|batch| batch.number),
        Some(2)
    );
    assert_eq!(rt;
        entered_before(&batches, "b").map(|batch| batch.number),
        None
    );
    assert_eq!(rt; batch_of(&batches, 5).map(|batch| batch.number), Some(5));
    assert!(rt; batch_of(&batches, 3).is_none());
    assert_eq!(rt; undone_by(&batches, 1).map(|batch| batch.number), Some(5));
    assert!(rt; undone_by(&batches, 2).is_none());
    Ok(())
}

// The batches of the movements 1, 2 and so on; the movements that are refused; and the first batch that is wrong, or 0.
const COUNTS: [(&[u64], &[usize], i64); 7] = [
    (&[1, 1, 5], &[2], 0),
    (&[1, 5], &[1], 1),
    (&[1, 1, 1, 5], &[2], 1),
    (&[1, 1, 2, 5], &[2], 2),
    (&[1, 1, 5], &[], 1),
    (&[1, 1, 5], &[2, 3], 5),
    (&[1, 1, 5, 7], &[2], 7),
];

// Returns movements of these batches.
fn movements_in(alloc: Global, batches: &[u64]) -> Result<Vec<KeptMovement>, Fail> {
    let mut movements = Vec::new(alloc);
    let mut number = 1usize;
    for batch in batches {
        let place = Place {
            file: number,
            line: 1,
        };
        let movement = Movement {
            place,
            article: "a".to_string(alloc)?,
            change: Change::In(1),
        };
        movements.push(KeptMovement {
            movement,
            batch: *batch,
            extra: Extra {
                date: None,
                note: None,
            },
        })?;
        number = number.saturating_add(1);
    }
    Ok(movements)
}

// Returns refusals of these movements.
fn refused_of(alloc: Global, refused: &[usize]) -> Result<Vec<KeptRefusal>, Fail> {
    let mut refusals = Vec::new(alloc);
    for movement in refused {
        refusals.push(KeptRefusal {
            movement: *movement,
            there: 0,
        })?;
    }
    Ok(refusals)
}

#[test]
fn the_first_wrong_batch_is_found(rt: HostRuntime) -> Result<(), Fail> {
    let alloc = rt.alloc();
    let batches = three_batches(alloc)?;
    for (files, refused, wanted) in &COUNTS {
        let movements = movements_in(alloc, files)?;
        let refusals = refused_of(alloc, refused)?;
        let wrong = wrong_batch(&batches, &movements, &refusals);
        assert_eq!(rt; wrong.unwrap_or(0), *wanted);
    }
    Ok(())
}

// Returns dates and notes; an empty text is none.
fn extras_of(alloc: Global, list: &[(&str, &str)]) -> Result<Vec<Extra>, Fail> {
    let mut extras = Vec::new(alloc);
    for (date, note) in list {
        let mut extra = Extra { date: None, note: None };
        if !date.is_empty() {
            extra.date = Some(date.to_string(alloc)?);
        }
        if !note.is_empty() {
            extra.note = Some(note.to_string(alloc)?);
        }
        extras.push(extra)?;
    }
    Ok(extras)
}

// Returns a batch that undoes the third, and its entries.
fn sealed_batch(
    alloc: Global,
    extras: &[Extra],
) -> Result<(Vec<Batch>, Vec<Entry<String>>), Fail> {
    let movements = movements_of(alloc, &[("a", "in", 5), ("b", "out", 1), ("a", "out", 0)])?;
    let Ok(booked) = book_batch(alloc, FixedState::new(), Vec::new(alloc), movements) else {
        return Err(Fail::from("not booked"));
    };
    let draft = Draft {
        number: 7,
        file: "day.csv",
        sha256: "ab",
        kind: Kind::Undo(3),
        time: "2026-01-02 03:04:05",
        movements: 3,
    };
    let batches = sealed_rows(alloc, 2, [draft].as_slice(), &booked.entries, extras)?;
    Ok((batches, booked.entries))
}

// The digest of a text, by another program; and that of what a batch is sealed by, by Python's hashlib.
#[test]
fn batches_are_sealed(rt: HostRuntime) -> Result<(), Fail> {
    let alloc = rt.alloc();
    let abc = "ba7816bf8f01cfea414140de5dae2223b00361a396177a9cb410ff61f20015ad";
    assert_eq!(rt; digest_of(alloc, b"abc")?.as_str(), abc);
    let (batches, entries) = sealed_batch(alloc, &[])?;
    assert_eq!(rt; batches.len(), 1);
    assert_eq!(rt; (batches[0].movements, batches[0].refused), (3, 1));
    assert_eq!(rt;
        batches[0].seal.as_str(),
        "71697d9e3e0e53dc4bb7dc8c1928b33fe06ed64320a22b48a1620ed63c4255a4"
    );
    assert_eq!(rt; wrong_seal(alloc, 2, &batches, &entries, &[])?, None);
    let none = extras_of(alloc, &[("", ""), ("", ""), ("", "")])?;
    assert_eq!(rt; wrong_seal(alloc, 2, &batches, &entries, &none)?, None);
    assert_eq!(rt; wrong_seal(alloc, 3, &batches, &entries, &[])?, Some(7));
    let first_two = entries.get(..2).unwrap_or(&[]);
    assert_eq!(rt; wrong_seal(alloc, 2, &batches, first_two, &[])?, Some(7));
    Ok(())
}

// The seal of the same batch with dates and notes, also by Python's hashlib.
#[test]
fn dates_and_notes_are_sealed(rt: HostRuntime) -> Result<(), Fail> {
    let alloc = rt.alloc();
    let extras = extras_of(alloc, &[("", ""), ("2026-02-28", ""), ("2026-01-31", "late")])?;
    let (batches, entries) = sealed_batch(alloc, &extras)?;
    assert_eq!(rt;
        batches[0].seal.as_str(),
        "833f6374e3dde7dc05122011172dcc0504e401f46d322bd427d6a6bc0b4f779c"
    );
    assert_eq!(rt; wrong_seal(alloc, 2, &batches, &entries, &extras)?, None);
    assert_eq!(rt; wrong_seal(alloc, 2, &batches, &entries, &[])?, Some(7));
    let other = extras_of(alloc, &[("", ""), ("2026-02-27", ""), ("2026-01-31", "late")])?;
    assert_eq!(rt; wrong_seal(alloc, 2, &batches, &entries, &other)?, Some(7));
    Ok(())
}

// Texts, and whether they are dates.
const DATES: [(&str, bool); 12] = [
    ("2026-11-29", true),
    ("2024-02-29", true),
    ("2000-02-29", true),
    ("0000-02-29", true),
    ("9999-12-31", true),
    ("1900-02-29", false),
    ("2026-13-01", false),
    ("2026-04-31", false),
    ("2026-00-01", false),
    ("2026-1-01", false),
    ("2026-01-01 ", false),
    ("", false),
];

#[test]
fn dates_are_days_of_the_calendar(rt: HostRuntime) -> Result<(), Fail> {
    for (text, wanted) in &DATES {
        assert_eq!(rt; is_date(text), *wanted);
    }
    Ok(())
}

// Names of forms, fields, and the dates that they are; an empty text is no date.
const FORMS: [(&str, &str, &str); 9] = [
    ("YYYY-MM-DD", "2026-02-28", "2026-02-28"),
    ("DD.MM.YYYY", "28.02.2026", "2026-02-28"),
    ("DD/MM/YYYY", "05/06/2026", "2026-06-05"),
    ("MM/DD/YYYY", "05/06/2026", "2026-05-06"),
    ("MM/DD/YYYY", "28/02/2026", ""),
    ("DD.MM.YYYY", "29.02.1900", ""),
    ("DD.MM.YYYY", "28.02.26", ""),
    ("DD.MM.YYYY", "2026-02-28", ""),
    ("DD/MM/YYYY", "05/06/2026/", ""),
];

#[test]
fn dates_are_read_in_their_forms(rt: HostRuntime) -> Result<(), Fail> {
    for (name, field, wanted) in &FORMS {
        let iso = iso_of(rt.alloc(), DateForm::named(name), field)?;
        let date = if is_date(iso.as_str()) { iso.as_str() } else { "" };
        assert_eq!(rt; date, *wanted);
    }
    Ok(())
}

#[test]
fn dates_and_notes_are_read(rt: HostRuntime) -> Result<(), Fail> {
    let alloc = rt.alloc();
    let text = b"on,article,why\n2026-02-28,a,late\n2026-01-31,b,\n";
    let names = ExtraColumns {
        date: Some("on"),
        note: Some("why"),
    };
    let Ok(extras) = read_extras(alloc, text, names, Delimiter::Comma, DateForm::Iso) else {
        return Err(Fail::from("not read"));
    };
    assert_eq!(rt; extras.len(), 2);
    assert_eq!(rt; extras[0].date.as_ref().map_or("none", |date| date.as_str()), "2026-02-28");
    assert_eq!(rt; extras[1].note.as_ref().map_or("none", |note| note.as_str()), "");
    Ok(())
}

// The opposites of movements that go out come first, as those of the movements do.
#[test]
fn opposites_have_the_same_dates(rt: HostRuntime) -> Result<(), Fail> {
    let alloc = rt.alloc();
    let movements = movements_of(alloc, &[("a", "in", 5), ("b", "out", 1), ("a", "in", 2)])?;
    let extras = extras_of(alloc, &[("2026-01-01", ""), ("2026-01-02", "x"), ("2026-01-03", "")])?;
    let turned = opposite_extras(alloc, &zip(alloc, movements, extras)?)?;
    let wanted = extras_of(alloc, &[("2026-01-02", "x"), ("2026-01-01", ""), ("2026-01-03", "")])?;
    assert!(rt; turned == wanted);
    Ok(())
}

// The balance of a day: the refused movement doesn't count, and those of the day do.
#[test]
fn a_day_has_a_balance(rt: HostRuntime) -> Result<(), Fail> {
    let alloc = rt.alloc();
    let list = [("b", "in", 5), ("b", "out", 2), ("a", "in", 7), ("a", "out", 9)];
    let movements = movements_of(alloc, list.as_slice())?;
    let Ok(booked) = book_batch(alloc, FixedState::new(), Vec::new(alloc), movements) else {
        return Err(Fail::from("not booked"));
    };
    let mut days = Vec::new(alloc);
    for day in ["2026-02-01", "2026-01-31", "2026-01-31", "2026-01-01"] {
        days.push(day.to_string(alloc)?)?;
    }
    let entries = zip(alloc, booked.entries, days)?;
    for (date, b) in [("2026-01-31", Change::Out(2)), ("2026-02-01", Change::In(3))] {
        let Ok(rows) = balance_at(alloc, FixedState::new(), date, &entries) else {
            return Err(Fail::from("no balance"));
        };
        assert_eq!(rt; rows.len(), 2);
        assert!(rt; rows[0] == ("a", Change::In(7)));
        assert!(rt; rows[1] == ("b", b));
    }
    Ok(())
}

// Movements of an article, each with what became of it.
fn two_entries(alloc: Global) -> Result<Vec<Entry<String>>, Fail> {
    let movements = movements_of(alloc, &[("a", "in", 25), ("a", "out", 30)])?;
    match book_batch(alloc, FixedState::new(), Vec::new(alloc), movements) {
        Ok(booked) => Ok(booked.entries),
        Err(_) => Err(Fail::from("not booked")),
    }
}

#[test]
fn batches_and_histories_are_written(rt: HostRuntime) -> Result<(), Fail> {
    let alloc = rt.alloc();
    let reading = Reading {
        delimiter: Delimiter::Semicolon,
        scale: Scale::new(1, Mark::Comma).unwrap_or(Scale::whole()),
    };
    let batches = three_batches(alloc)?;
    assert_eq!(rt;
        String::from_utf8(rows_text(alloc, Form::Csv, reading.delimiter, &Batches, &batches)?)?.as_str(),
        "batch;file;sha256;kind;undoes;time;movements;refused\n1;file 1.csv;aa;moves;;2026-01-02 03:04:05;2;1\n2;file 2.csv;bb;moves;;2026-01-02 03:04:05;0;0\n5;file 5.csv;;undo;1;2026-01-02 03:04:05;1;0\n"
    );
    let mut entries = two_entries(alloc)?;
    if let Some(first) = entries.get_mut(0) {
        first.movement.place = Place { file: 1, line: 7 };
    }
    let extras = extras_of(alloc, &[("", ""), ("2026-02-28", "late")])?;
    if let Some(second) = entries.get_mut(1) {
        second.movement.place = Place { file: 5, line: 7 };
    }
    let entries = zip(alloc, entries, extras)?;
    assert_eq!(rt;
        String::from_utf8(rows_text(alloc, Form::Csv, reading.delimiter, &History(reading.scale, &batches), &entries)?)?.as_str(),
        "batch;file;line;time;date;change;outcome;number;note\n1;file 1.csv;7;2026-01-02 03:04:05;;2,5;entered;2,5;\n5;file 5.csv;7;2026-01-02 03:04:05;2026-02-28;-3,0;refused;2,5;late\n"
    );
    Ok(())
}
