#!/usr/bin/env bash
# Lets one allocation fail in each run: the first one, then the second, and so on.
#
# The program `tests_memory` makes calls of the bag and of the program's text, after a given number of spare allocations. In each run
# allocation number `runs` of the process fails. So after `runs` - R spare allocations it is allocation R of the calls, and with one build and
# one run for each R from 1 on each allocation of the calls fails once. Up to the last allocation of the calls each run must say that a call
# returned the error and that all is as it should be. Past it each must say that no call did, and which of the spare allocations after the
# calls failed: so the calls allocate equally often in all of these. If the calls allocate more often than there are runs, all is done again
# with twice as many runs.
#
# Some calls do without some allocations: they rest on calls of std that allocate less if memory is short. If the calls are the lenient ones, a
# run may say that nothing was refused, and has then checked what all calls returned and left. A sum whose spare slots can't be allocated makes
# room for the absent values instead.
#
# The program `hashbag_run`, on two inputs, with its first request refused: it must write `no memory` with status 3.
set -u
top=$(cd "$(dirname "$0")/../.." && pwd) || exit 1
scratch=$(mktemp -d) || exit 1
trap 'rm -rf "$scratch"' EXIT

# try_cases REPOSITORY CRATE REQUEST: runs the crate's program on each file of its folder of cases, with that request of each run refused.
# It is run as it is built with checks, and not on the interpreter too, which would take most of the time.
try_cases() {
  (cd "$1/crates/$2" && "$top/tests/crates/try_alone.py" --fail-alloc "$3" --steps 1 --cases "$scratch/$2" > "$scratch/$2.said" 2>&1)
}

# fail WHAT [FILE]: says what is wrong, after what is in the file
fail() {
  [ $# = 1 ] || cat "$2"
  echo "refused memory: $1"
  return 1
}

# lines_of CALLS: for each run for these calls the number of the request and the line that it wrote, in turn. Where the run did
# not end with status 0, how it ended is before that line.
lines_of() {
  awk -v calls="$1" '
    $1 == "==" { getline text; next }
    index($1, "case=" calls ".") == 1 {
      ended = $2 == "run=ended" && $3 == "status=0" ? "" : $2 " " $3 ", "
      print substr($1, length("case=" calls ".") + 1) " " ended text
      text = ""
    }
  ' "$scratch/tests_memory.said" | sort -n
}

# The single calls, each with the number of requests that it makes, those for its bag included: a table of slots takes two, one for its
# tags and one for its cells. What makes as many as `insert` of the same size alone takes no memory itself. `without` marks a call that
# succeeds without the last of them.
singles() {
  cat << 'END'
with_capacity-0 0
with_capacity-100 2
insert-0 0
insert-1 2
insert-12 2
insert-13 4
insert-24 4
insert-25 6
insert-26 6
quiet-25 6
limits-0 0
limits-24 4
limits-25 6
clear-25 6
into_iter-25 6
replace-12 4
replace-24 6
or_insert-12 4
or_insert-24 6
joins-25 8
merge-0 4
merge-12 6 without
merge-24 8 without
merge-25 8
merge_ref-0 6
merge_ref-24 10 without
merge_ref-25 10
full_merge_ref-24 6
keep_most-0 4
keep_most-12 6 without
keep_most-25 8
parts-25 8
sorted-0 0
sorted-25 7
most_common-25 8
clone-0 0
clone-25 8
within-25 6
reserve-25 8
shrink-0 0
shrink-25 6
roomy_shrink-25 10
extend-12 2
extend-25 6
extend_many-12 2
extend_many-25 6
extend_refs-0 4
extend_refs_many-0 4
from_iter-25 6
from_counts-25 6
END
}

# judge_singles: each single call allocates as often as `singles` says, and no more. If the last allocation fails, it says so, or that
# nothing was refused, if it does without; if the one after it fails, that is the first one after the calls.
judge_singles() {
  local name wanted without last lines first=1
  lines=$(awk '
    $1 == "==" { getline text; next }
    index($1, "case=single.") == 1 { print substr($1, length("case=single.") + 1) " " text; text = "" }
  ' "$scratch/tests_memory.said")
  while read -r name wanted without; do
    last="refused, and all stands"
    [ -z "$without" ] || last="nothing refused"
    if [ "$wanted" != 0 ] && ! grep -qx "$name.last $last" <<< "$lines"; then
      fail "$name makes fewer than $wanted requests" "$scratch/tests_memory.said"
      return 1
    fi
    if ! grep -qx "$name.past not refused: request $first after the calls" <<< "$lines"; then
      fail "$name makes other than $wanted requests" "$scratch/tests_memory.said"
      return 1
    fi
  done < <(singles)
  echo "refused memory: $(singles | wc -l) single calls, each with its number of requests and no more"
}

# judge CALLS NUMBER MAY: each request of these calls refused in turn, in this number of runs. MAY is a further text that a run may write, or
# nothing. The status is 3 if the calls make more requests than there are runs.
judge() {
  local request answer last=0 without=0 seen=0
  while read -r request answer; do
    seen=$((seen + 1))
    if [ "$last" = $((seen - 1)) ] && [ "$answer" = "refused, and all stands" ]; then
      last=$seen
    elif [ "$last" = $((seen - 1)) ] && [ -n "$3" ] && [ "$answer" = "$3" ]; then
      last=$seen
      without=$((without + 1))
    elif [ "$answer" != "not refused: request $((seen - last)) after the calls" ]; then
      fail "the $1 calls, request $request: $answer"
      return 1
    fi
  done < <(lines_of "$1")
  if [ "$seen" != "$2" ]; then
    fail "the $1 calls: $seen of $2 runs came to an end" "$scratch/tests_memory.said"
    return 1
  fi
  [ "$last" != "$2" ] || return 3
  if [ "$last" = 0 ]; then
    fail "the $1 calls: no request was refused"
    return 1
  fi
  echo "refused memory: the $1 calls: each of $last requests in turn, of which the calls do without $without"
}

# cases_of CALLS NUMBER: a case for each of the first requests of these calls
cases_of() {
  local request
  for request in $(seq "$2"); do
    echo "$1 $((runs - request))" > "$scratch/tests_memory/$1.$request"
  done
}

# refuse_each: each request of the calls refused in turn, and what comes after. The lenient calls make fewer.
refuse_each() {
  local calls request lenient_runs=$((runs / 2))
  rm -rf "$scratch/tests_memory"
  mkdir "$scratch/tests_memory" || return 1
  cases_of strict "$runs"
  cases_of lenient "$lenient_runs"
  while read -r calls request _; do
    [ "$request" = 0 ] || echo "$calls $((runs - request))" > "$scratch/tests_memory/single.$calls.last"
    echo "$calls $((runs - request - 1))" > "$scratch/tests_memory/single.$calls.past"
  done < <(singles)
  try_cases "$scratch/beside" tests_memory "$runs"
  judge strict "$runs" "" && judge lenient "$lenient_runs" "nothing refused" && judge_singles
}

# refuse_in_calls: the same with as many runs as the calls need
refuse_in_calls() {
  local status
  for runs in 320 640 1280 2560; do
    refuse_each
    status=$?
    [ $status = 3 ] || return $status
  done
  fail "the calls make more than $runs requests"
}

# refuse_the_first: the first request of the program refused, on two inputs
refuse_the_first() {
  local cases="$scratch/hashbag_run" name
  mkdir "$cases" || return 1
  cp "$top/crates/hashbag_run/stdin" "$cases/run"
  printf 'a insert 5\n\nc insert 5\n' > "$cases/bad"
  for name in run bad; do
    printf 'no memory\n' > "$cases/$name.stdout"
  done
  try_cases "$top" hashbag_run 1
  for name in run bad; do
    if ! grep -q "^case=$name run=ended status=3 .*output=expected" "$scratch/hashbag_run.said"; then
      fail "the program, its first request" "$scratch/hashbag_run.said"
      return 1
    fi
  done
  echo "refused memory: the program: its first request"
}

"$top/tests/crates/beside.py" "$scratch/beside" && refuse_the_first && refuse_in_calls
