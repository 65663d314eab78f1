#!/usr/bin/env bash
# bash tests/crates/page_programs.sh: the whole programs of README.md, docs/use/INSTALL.md and docs/use/COOKBOOK.md, run by `rt try` as these
# pages print them; `tests/crates/try_alone.py` leaves out what `rt` starts besides. INSTALL's program is in another repository, which the
# page's own commands make of the last commit; the others are in one that `tests/crates/beside.py` makes of the files as they are. What they print
# is what the pages say. A fault prints the page's program and what differs. The last line is 'page_programs: N run'.
set -u
cd "$(dirname "$0")/../.." || exit 1
top=$PWD
scratch=$(mktemp -d) || exit 1
trap 'rm -rf "$scratch"' EXIT
count=0

fail() {
  echo "page_programs: $1"
  exit 1
}

# block PAGE TEXT: the first block of the page after the line that has the text, fenced or indented, without its fence or indentation.
block() {
  awk -v text="$2" '
    index($0, text) { after = 1; next }
    !after { next }
    /^```$/ { exit }
    /^```/ { fenced = 1; next }
    fenced { print; next }
    /^    / { printf "%s", blank; print substr($0, 5); blank = ""; shown = 1; next }
    /^$/ && shown { blank = blank "\n"; next }
    shown { exit }
  ' "$1"
}

# line PAGE NAME: the line of crates.txt of the crate, which the page has in a code span.
line() {
  grep -o "\`$2: [a-z_ ]*\`" "$1" | tr -d '`'
}

# run REPOSITORY NAME STATUS ARGUMENT..: runs the crate by `rt try`. Its output is $scratch/got, and what it writes on standard error $scratch/said.
run() {
  local crate=$scratch/$1/crates/$2 name=$2 status=$3
  shift 3
  (cd "$crate" && "$top/tests/crates/try_alone.py" "$@") > "$scratch/got" 2> "$scratch/said"
  local ended=$?
  count=$((count + 1))
  [ $ended = "$status" ] && return
  cat "$scratch/got" "$scratch/said"
  fail "$name ended with status $ended, not $status"
}

# prints NAME TEXT: what the last run printed.
prints() {
  printf '%s\n' "$2" | cmp -s - "$scratch/got" && return
  printf '%s\n' "$2" | diff - "$scratch/got"
  fail "$1 prints something else"
}

mkdir "$scratch/other" || exit 1
ln -s "$top" "$scratch/hashbag" || exit 1
block docs/use/INSTALL.md 'This was done in an empty folder' > "$scratch/commands"
(cd "$scratch" && bash -e commands) > "$scratch/said" 2>&1 || { cat "$scratch/said"; fail "the commands of docs/use/INSTALL.md"; }
block docs/use/INSTALL.md '`crates/colours/src/main.rt`' > "$scratch/other/crates/colours/src/main.rt"

tests/crates/beside.py "$scratch/beside" || exit 1
mkdir -p "$scratch/beside/crates/words/src" "$scratch/beside/crates/saved/src" || exit 1
line README.md words >> "$scratch/beside/crates.txt"
line docs/use/COOKBOOK.md saved >> "$scratch/beside/crates.txt"
block README.md '`crates/words/src/main.rt`' > "$scratch/beside/crates/words/src/main.rt"
block docs/use/COOKBOOK.md '`crates/saved/src/main.rt`' > "$scratch/beside/crates/saved/src/main.rt"

run other colours 0 < /dev/null
prints 'the program of docs/use/INSTALL.md' "$(block docs/use/INSTALL.md '`rt try` printed this')"

run beside words 0 <<< 'the cat and the hat'
LC_ALL=C sort "$scratch/got" > "$scratch/sorted"
mv "$scratch/sorted" "$scratch/got"
prints 'the program of README.md, sorted,' $'1 and\n1 cat\n1 hat\n2 the\n2 times `the`\n5 words'

# A faulty file, then a good one.
echo '[["nut",5],["bolt",-2]]' > "$scratch/beside/crates/saved/counts.json"
run beside saved 1 -- counts.json saved.json < /dev/null
for text in 'Error: counts.json' 'Caused by:' 'pair 1: bad count'; do
  grep -qF "$text" "$scratch/said" || { cat "$scratch/said"; fail "the program of docs/use/COOKBOOK.md doesn't print '$text'"; }
done
echo '[["nut",5],["bolt",2]]' > "$scratch/beside/crates/saved/counts.json"
run beside saved 0 -- counts.json saved.json < /dev/null

echo "page_programs: $count run"
