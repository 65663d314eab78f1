# shellcheck shell=bash
# bench/taken.sh, which bench/words, bench/match and bench/ledger read: measures lines of shell by /usr/bin/time, that of GNU. They run in the folder
# $scratch, which is removed at the end.
export LC_ALL=C
scratch=$(mktemp -d) || exit 1
trap 'rm -rf "$scratch"' EXIT
trap 'exit 130' INT
trap 'exit 143' TERM

# fail TEXT: says what is wrong, and ends.
fail() {
  echo "${0##*/}: $1" >&2
  exit 1
}

[ -x /usr/bin/time ] || fail "there is no /usr/bin/time, which measures: Debian's package \`time\` has it"

# program NAME: the path of a program, which is that of a file, or is on PATH.
program() {
  local path
  path=$(type -P "$1") || fail "no program: $1"
  realpath "$path"
}

# is_there NAME: whether this program is on this machine; if not, it says so.
is_there() {
  type -P "$1" > "$scratch/said" && return
  echo "not tried: $1"
  return 1
}

# measure NAME LINE: runs a line of bash in $scratch, and keeps under this name its seconds and its memory.
measure() {
  (cd "$scratch" && /usr/bin/time -o took -f '%U %S %M' bash -c "set -e -o pipefail; $2") || fail "status $? of: $2"
  printf '%s\t%s\n' "$1" "$(tail -n 1 "$scratch/took")" >> "$scratch/takes"
}

# seconds NAME: the median of the seconds, of user and system, of all processes.
seconds() {
  awk -F '\t' -v name="$1" '$1 == name { split($2, it, " "); printf "%.2f\n", it[1] + it[2] }' "$scratch/takes" | median
}

# megabytes NAME..: the most memory of one process: the median of a name, and the greatest of several names.
megabytes() {
  local name
  for name; do
    awk -F '\t' -v name="$name" '$1 == name { split($2, it, " "); printf "%.0f\n", it[3] / 1000 }' "$scratch/takes" | median
  done | sort -n | tail -n 1
}

median() {
  sort -n | awk '{ it[NR] = $1 } END { print it[int((NR + 1) / 2)] }'
}

# grouped N: a number with commas.
grouped() {
  sed -E ':again; s/^([0-9]+)([0-9]{3})/\1,\2/; t again' <<< "$1"
}
