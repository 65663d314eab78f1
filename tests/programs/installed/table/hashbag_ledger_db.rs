pub static OPTIONS: &[&str] = &[
    "# hashbag_ledger | Enters.",
    ": total | Total it",
    ": enter | Enter it",
    ": undo | Undo it",
    ". First. All is read before it is written: hashbag_ledger total -o a. If the first word is enter or undo, a
database is used. A stock: hashbag_ledger enter --db a.

.dot, \\t, ^, ~ and 'quotes'.

Status: 0 entered.",
    "@ total",
    "MOVES.csv MOVES.csv... | What moves",
    "--mark MARK | Before decimals | of . , tab \\t | default .",
    "@ enter undo",
    "--db FILE | The database | required",
    ". Status: 0 done, 6 before.",
];
