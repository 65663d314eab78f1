#!/usr/bin/env bash
# bash tests/crates/wrong_bodies_test.sh: what tests/crates/wrong_bodies.py says of wrong bodies that the prover doesn't reject, or not by themselves, and what
# tests/crates/record.py tries again. It runs them on three small crates of a scratch repository. A fault prints what was said. The last line is
# 'wrong_bodies_test: ok'.
set -u
top=$(cd "$(dirname "$0")/../.." && pwd) || exit 1
scratch=$(mktemp -d) || exit 1
trap 'rm -rf "$scratch"' EXIT
cd "$scratch" || exit 1
said=$scratch/said

fail() {
  cat "$said"
  echo "wrong_bodies_test: $1"
  exit 1
}

# tried STATUS NAME..: runs the script on these crates, and it ends with the status.
tried() {
  local status=$1
  shift
  "$top/tests/crates/wrong_bodies.py" --root "$scratch" "$@" > "$said" 2>&1
  local ended=$?
  [ $ended = "$status" ] || fail "it ended with status $ended, not $status"
}

# recorded STATUS WORD..: runs tests/crates/record.py with these words, and it ends with the status.
recorded() {
  local status=$1
  shift
  "$top/tests/crates/record.py" --root "$scratch" "$@" > "$said" 2>&1
  local ended=$?
  [ $ended = "$status" ] || fail "record.py $* ended with status $ended, not $status"
}

# says TEXT: a line of what was said begins so.
says() {
  grep -q "^$1" "$said" || fail "it doesn't say: $1"
}

# body CRATE NAME LINE..: a wrong body.
body() {
  mkdir -p "crates/$1/refused"
  printf '%s\n' "breaks: what it is for" 'file: src/lib.rt' "${@:3}" > "crates/$1/refused/$2.edit"
}

mkdir -p crates/low/src crates/high/src crates/sums/src crates/sums/proofs || exit 1
git init -q .
printf 'low:\nhigh: low\nsums:\n' > crates.txt
head='#![tactic(auto)]
ghost use Rattle.std.specs.Prelude.{◌≡◌, ◌+◌, ◌≤◌, ◌<◌};
'

# A library, and a crate above it.
printf '%s' "$head" > crates/low/src/lib.rt
cat >> crates/low/src/lib.rt << 'END'

pub fn base() -> u8
    ensures value { result ≡ 1 }
{
    1
}
END
printf '%s' "$head" > crates/high/src/lib.rt
cat >> crates/high/src/lib.rt << 'END'

pub fn one() -> u8
    ensures value { result ≡ 1 }
{
    low::base()
}
END
body high one_is_two 'old: low::base()' 'new: low::base() + 1'

# Functions that are changed, and one that they call.
printf '%s' "$head" > crates/sums/src/lib.rt
cat >> crates/sums/src/lib.rt << 'END'

pub fn next(n: u8) -> u8
    requires small { n < 100 }
    ensures value { result ≡ n + 1 }
{
    n + 1
}

pub fn lesser(n: u8, m: u8) -> u8
    ensures value { result ≤ n }
{
    if n < m { n } else { m }
}

pub fn same(given: u8) -> u8
    ensures value { result ≡ given }
{
    given
}
END
for name in first second third; do
  called=same
  [ $name = first ] && called=next
  cat >> crates/sums/src/lib.rt << END

pub fn $name(n: u8) -> u8
    requires small { n < 90 }
    ensures value { n ≤ result }
{
    let of_$name = $called(n);
    of_$name
}
END
  mkdir crates/sums/proofs/$name
  cat > crates/sums/proofs/$name/Answers.antt << END
use Rattle.std.proofs.Common.{arith}
use Rattle.sums.proofs.$name.Goals as goal

pub returns : goal.returns
returns c = let known = c.$called-of_$name in omega (arith, known.ensures)
END
done
cat >> crates/sums/src/lib.rt << 'END'

pub const MOST: u8 = 9;
END

body sums adds_two 'old:     n + 1' 'new:     n + 2'
body sums adds_none 'old:     n + 1' 'new:     n'
body sums proved 'old: { n } else { m }' 'new: { n } else { m / 2 }'
body sums changes_nothing 'old:     given' 'new:     given // the same'
body sums borrows 'old: let of_first = next(n);' 'new: let of_first = next(n); // the same'
body sums names_only 'old: let of_second = same(n);' 'new: let other = same(n); let of_second = other;'
body sums names_only_told 'old: let of_third = same(n);' 'new: let other = same(n); let of_third = other;' 'names-only: so that this is seen'
body sums stands_twice 'old: requires small' 'new: requires tiny'
body sums stands_never 'old: n + 5' 'new: n + 6'
body sums no_function 'old: MOST: u8 = 9' 'new: MOST: u8 = 8'
body sums changes_clause 'old: result ≡ n + 1' 'new: result ≡ n + 2'
body sums no_path 'old: const MOST: u8 = 9' 'new: const MOST: u8 = 7' 'fn: nowhere'
body sums not_compiled 'old:     if n < m' 'new:     if n'

tried 1
says 'high one_is_two: one: returns'
says 'sums adds_two: next: returns'
says 'sums adds_none: next: returns'
says 'sums borrows: NOT REFUSED: first: proved'
says 'sums changes_clause: NOT REFUSED: it changes a clause'
says 'sums changes_nothing: NOT REFUSED: same: proved'
says 'sums names_only: NOT REFUSED: second: only because a proof names what is gone'
says 'sums names_only_told: third: a name is gone, returns: so that this is seen'
says 'sums no_function: NOT REFUSED: its old text is in no function'
says "sums no_path: NOT REFUSED: there is no function nowhere"
says "sums not_compiled: NOT REFUSED: it doesn't compile: src/lib.rt:14:"
says 'sums proved: NOT REFUSED: lesser: proved'
says 'sums stands_never: NOT REFUSED: its old text is in src/lib.rt 0 times'
says 'sums stands_twice: NOT REFUSED: its old text is in src/lib.rt 4 times'
says 'wrong_bodies: 4 refused, 10 not refused$'

# A library that `rt ci` has left, without a stamp, is taken as it is. One that is older than its sources is built again, but not with `--built`:
# here the wrong body does what the contract says, once the library below has changed.
rm crates/low/out/rlib/stamp || exit 1
tried 0 high
says 'wrong_bodies: 1 refused, 0 not refused$'
[ ! -e crates/low/out/rlib/stamp ] || fail "it built a library that was left"
sed -i 's/≡ 1/≡ 0/; s/^    1/    0/' crates/low/src/lib.rt
tried 0 --built high
says 'wrong_bodies: 1 refused, 0 not refused$'
tried 1 high
says 'high one_is_two: NOT REFUSED: one: proved'

# Folders and files that nothing would try.
tried 1 low
says 'wrong_bodies: there is no wrong body of low$'
body loose adds_two 'old: 1' 'new: 2'
tried 1
says 'wrong_bodies: crates/loose/refused: crates.txt has no crate loose$'
rm -r crates/loose
touch crates/sums/refused/left.txt
tried 1
says 'wrong_bodies: crates/sums/refused/left.txt is no file NAME.edit$'
rm crates/sums/refused/left.txt
mkdir crates/sums/must-fail
touch crates/sums/must-fail/one.edit
tried 1 high
says 'wrong_bodies: crates/sums/must-fail'
rm -r crates/sums/must-fail

# The record: wrong bodies that were rejected aren't tried again until something that decided it changes.
(cd crates/sums/refused && rm proved.edit changes_nothing.edit borrows.edit names_only.edit stands_*.edit no_*.edit changes_clause.edit not_compiled.edit) || exit 1
rm -r crates/high/refused
mkdir -p tests/crates
record=tests/crates/refused.txt
recorded 0 --write
says 'sums adds_none: next: returns'
says 'record: 3 tried now (3 changed, 0 drawn), 0 stand by the record$'
[ "$(cut -d ' ' -f 1,2 $record)" = $'sums adds_none\nsums adds_two\nsums names_only_told' ] || fail "the record has other lines"
cp $record written
sed -i 's/^    n + 1$/    \/\/ a comment\n    n + 1/' crates/sums/src/lib.rt
recorded 0 --drawn high
says 'record: 0 tried now (0 changed, 0 drawn), 3 stand by the record$'
says 'wrong_bodies: 3 refused, 0 not refused$'
recorded 0
says 'record: 3 tried now (0 changed, 3 drawn), 0 stand by the record$'

# A contract that a wrong body meets, another body of its function, a body that the record lacks and whose edit changes nothing.
cp crates/sums/src/lib.rt kept.rt
sed -i 's/ensures value { result ≡ n + 1 }/ensures value { n ≤ result }/' crates/sums/src/lib.rt
recorded 1 --drawn high
says 'sums adds_two: NOT REFUSED: next: proved'
says 'record: 2 tried now (2 changed, 0 drawn), 1 stand by the record$'
says 'wrong_bodies: 1 refused, 2 not refused$'
cp kept.rt crates/sums/src/lib.rt
body sums changes_nothing 'old:     given' 'new:     given // the same'
recorded 1 --drawn high
says 'sums changes_nothing: NOT REFUSED: same: proved'
says 'record: 1 tried now (1 changed, 0 drawn), 3 stand by the record$'
cmp -s written $record || fail "a run without --write changed the record"

# A body that is proved, and that the record has as rejected: the crate that is drawn shows it. A line for a body that isn't there.
sum=$(cd "$top/tests/crates" && python3 -B -c "
import sys
from body_checks import Repository
from body_files import bodies_of
from body_sums import Sums
repository = Repository(sys.argv[1], True)
print(next(Sums(repository, sys.argv[2]).of(it) for it in bodies_of(repository, [])['sums'] if it.name == 'changes_nothing'))
" "$scratch" "$(rt version | grep -o 'logic [0-9a-f]*' | cut -d ' ' -f 2)")
echo "sums changes_nothing $sum same: returns" >> $record
recorded 0 --drawn high
recorded 1 --drawn sums
says 'sums changes_nothing: NOT REFUSED: same: proved'
echo "sums gone $sum same: returns" >> $record
recorded 1 --drawn high
says "record: a line for a wrong body that isn't there: sums gone$"
rm crates/sums/refused/changes_nothing.edit
recorded 0 --drawn high --write
cmp -s written $record || fail "--write kept a line of a body that is gone"
echo 'wrong_bodies_test: ok'
