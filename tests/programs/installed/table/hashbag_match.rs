pub static OPTIONS: &[&str] = &[
    "# hashbag_match | Matches.",
    "A.csv | A list",
    "--to FORM | A form | of x y | in-any-case",
    "--mark MARK | What is between | of . \\ ␣ \\t",
    ". Example: hashbag_match --to x a.csv
         hashbag_match 'a b.csv'

Status: 0 they agree, 1 they differ.",
];
