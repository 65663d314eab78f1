pub static OPTIONS: &[&str] = &[
    "# hashbag_words | Counts things",
    ": count | Count",
    ": merge | Add up counts",
    ". `-` is standard input. Without a command, `count` is meant, so this counts what isn't a space, a tab or the end of a line, and more:
    hashbag_words --by word text
`hashbag_words count --help` says more.

Parts:
    cat counts | hashbag_words merge

Exit status: 0 done; 2 a bad line, or 3 of them; 4 a read failed. With 2 and 4 nothing was written.",
    "@ count",
    "files FILE... | What is read",
    "--by WHAT | What is counted: it's a list [of two] | of word line | default word",
    "--output -o FILE | Write there",
    "= What is shown",
    "--top -n K | The most common \
        alone | number | needs --by",
    "@ merge",
    "first A | Counts",
    "second B | Other counts",
    "--fold | Upper and lower case | not --output",
];
