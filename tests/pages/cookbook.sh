#!/usr/bin/env bash
# bash tests/pages/cookbook.sh: docs/use/COOKBOOK.md links the modules of `hashbag_cookbook` of `beside`, each once, in the order in which its `main` calls
# them. What they print is the crate's file `stdout`, with which `tests/crates/tested.py` compares it; it has each module's name in this order. The page has
# the crate's line of beside/list.txt. The last line is 'cookbook: N linked'.
set -u
cd "$(dirname "$0")/../.." || exit 1
page=docs/use/COOKBOOK.md
crate=beside/crates/hashbag_cookbook
scratch=$(mktemp -d) || exit 1
trap 'rm -rf "$scratch"' EXIT

# same FILE FILE WHAT: both files are the same, else the test ends
same() {
  cmp -s "$1" "$2" && return
  diff "$1" "$2" | head -n 5
  echo "cookbook: $3 of $page"
  exit 1
}

sed -n 's/^ *\([a-z_]*\)::show(.*/\1/p' "$crate/src/main.rs" > "$scratch/modules"
sed -n "s|^. \[\([a-z_]*\)\](../../$crate/src/\([a-z_]*\)\.rs) .*|\1 \2|p" "$page" > "$scratch/links"
sed 's/.*/& &/' "$scratch/modules" > "$scratch/wanted"
grep -xF -f "$scratch/modules" "$crate/stdout" > "$scratch/titles"
grep '^hashbag_cookbook:' beside/list.txt | sed 's/^/    /' > "$scratch/line"
grep '^    hashbag_cookbook:' "$page" > "$scratch/shown"

same "$scratch/links" "$scratch/wanted" "the links"
same "$scratch/titles" "$scratch/modules" "the names in $crate/stdout, and the links"
same "$scratch/shown" "$scratch/line" "the crate's line"
count=$(wc -l < "$scratch/modules")
files=("$crate"/src/*.rs)
if [ "$count" = 0 ] || [ "$count" != $((${#files[@]} - 1)) ]; then
  echo "cookbook: $count modules are called"
  exit 1
fi
echo "cookbook: $count linked"
