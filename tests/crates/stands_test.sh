#!/usr/bin/env bash
# bash tests/crates/stands_test.sh: what tests/stands.py says is to be run, in a scratch repository of two crates and two scripts: all that didn't pass; what
# reads a file that changed, that came or that went, also of a crate below; what the commit draws; and what no line of tests/reads.txt is of. The last line
# is 'stands_test: ok' or says what is wrong.
set -u
top=$(cd "$(dirname "$0")/../.." && pwd) || exit 1
scratch=$(mktemp -d) || exit 1
trap 'rm -rf "$scratch"' EXIT
cd "$scratch" && mkdir -p tests beside/crates crates/low/src crates/low/refused crates/high/src || exit 1
sed 's/^TOOLS = .*/TOOLS = ()/' "$top/tests/stands.py" > tests/stands.py && chmod +x tests/stands.py # the versions of tools take long
export GIT_AUTHOR_DATE='2026-01-01 00:00 +0000' GIT_COMMITTER_DATE='2026-01-01 00:00 +0000'
printf 'low: core\nhigh: low # a comment\n' > crates.txt
printf 'one: =high data/\ntwo: docs/a\nthree: docs/refused_b\n' > tests/reads.txt
mkdir docs data && echo > docs/a && echo > docs/refused_b && touch crates/low/src/lib.rt crates/high/src/lib.rt crates/low/refused/it.edit beside/list.txt
git init -q . && git add -A && git -c user.name=a -c user.email=a@example.org commit -q -m one || exit 1

fail() {
  echo "stands_test: $1"
  exit 1
}

# due LABEL..: these are to be run, of all three and one that isn't known, besides the drawn one
due() {
  local found
  found=$(tests/stands.py one two three unknown | sed 's/^[0-9a-f]* //' | grep -vx "$drawn" | tr '\n' ' ')
  [ "$found" = "$(printf '%s\n' "$@" unknown | grep -vx "$drawn" | tr '\n' ' ')" ] || fail "to be run: $found, and not: $*"
}

drawn=none
due one two three
mapfile -t lines < <(tests/stands.py one two three)
tests/stands.py --passed "${lines[@]}"
drawn=$(tests/stands.py one two three | sed 's/^[0-9a-f]* //')
[[ $drawn =~ ^(one|two|three)$ ]] || fail "not one is drawn: $drawn"
due
echo b > docs/refused_b && due three
echo > docs/refused_b && due
echo a > crates/low/src/lib.rt && due one
git checkout -q crates && due
echo a > crates/low/refused/it.edit && due
touch data/new && due
git add data && due one
git rm -qf data/new && rm docs/a && due two
git checkout -q docs/a && due
sed -i 's/low: core/low: core std/' crates.txt && due one
git checkout -q crates.txt && sed -i "s:^two.*:& docs/refused_b:" tests/reads.txt && due two
# the commit draws: of thirty commits each comes up
for ((it = 1; it <= 30; it++)); do
  git -c user.name=a -c user.email=a@example.org commit -q --allow-empty -m "$it"
  tests/stands.py one three
done | sed 's/^[0-9a-f]* //' | sort -u > found
[ "$(tr '\n' ' ' < found)" = "one three " ] || fail "drawn of thirty commits: $(cat found)"
echo "stands_test: ok"
