//! Counts the words or the lines of a text by Rust's own map, and writes them sorted, as `uniq -c` does: `words TEXT`, `lines TEXT`.
use std::collections::HashMap;
use std::env;
use std::fs::File;
use std::io::{self, BufRead, BufReader, BufWriter, Write};

fn main() -> io::Result<()> {
    let args: Vec<String> = env::args().collect();
    let of_lines = args[1] == "lines";
    let mut text = BufReader::new(File::open(&args[2])?);
    let mut counts: HashMap<String, u64> = HashMap::new();
    let mut add = |token: &str| match counts.get_mut(token) {
        Some(count) => *count += 1,
        None => {
            counts.insert(token.to_string(), 1);
        }
    };
    let mut line = String::new();
    while text.read_line(&mut line)? > 0 {
        if of_lines {
            add(line.strip_suffix('\n').unwrap_or(&line));
        } else {
            line.split_whitespace().for_each(&mut add);
        }
        line.clear();
    }
    let mut rows: Vec<(String, u64)> = counts.into_iter().collect();
    rows.sort_unstable();
    let mut out = BufWriter::new(io::stdout().lock());
    for (token, count) in &rows {
        writeln!(out, "{count:7} {token}")?;
    }
    out.flush()
}
