#!/usr/bin/env bash
# bash tests/pages/error_texts.sh: docs/use/FORMAT.md has the numbers and the texts of the library's errors as the table has them that was written by
# hand, beside/crates/tests_errors/stdin. `tests/crates/tested.py tests_errors` compares that table with the code. The last line is
# 'error_texts: N texts'.
set -u
cd "$(dirname "$0")/../.." || exit 1
page=docs/use/FORMAT.md
table=beside/crates/tests_errors/stdin

# Lines of a type, a number and a text. Of the errors of a pair the page has those of pair 0.
wanted=$(awk -F ' [|] ' '!/^#/ && ($1 !~ /[(]/ || $1 ~ /[(]0[)]$/) { sub(/::.*/, "", $1); print $1, $2, $3 }' "$table" | LC_ALL=C sort)
shown=$(awk '
  /^- `[A-Za-z]*Error`: / { kind = $2; gsub(/[^A-Za-z]/, "", kind) }
  !/^(- `[A-Za-z]*Error`:|  )/ { kind = "" }
  kind {
    while (match($0, /[0-9]+ `[^`]*`/)) {
      text = substr($0, RSTART, RLENGTH)
      $0 = substr($0, RSTART + RLENGTH)
      gsub(/`/, "", text)
      print kind, text
    }
  }
' "$page" | LC_ALL=C sort)
if [ -z "$wanted" ] || [ "$wanted" != "$shown" ]; then
  diff <(echo "$wanted") <(echo "$shown")
  echo "error_texts: $page isn't $table"
  exit 1
fi
echo "error_texts: $(wc -l <<< "$wanted") texts"
