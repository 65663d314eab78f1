# Read by the scripts of tests/programs that run a program as a process: how its name and a folder are found, and what a run is compared with.
set -u
export LC_ALL=C
scratch=$(mktemp -d) || exit 1
trap 'chmod -R u+w "$scratch"; rm -rf "$scratch"' EXIT

# begin CRATE [PROGRAM]: `program` is the one that is named, or else the crate's, which is proved and compiled first. The folder is a new one
begin() {
  local folder
  folder=$(cd "$(dirname "$0")/../../crates/$1" && pwd) || exit 1
  if [ $# = 2 ]; then
    program=$(realpath "$2") || exit 1
  else
    (cd "$folder" && rt run -- --version) > "$scratch/built" 2>&1 || { cat "$scratch/built"; exit 1; }
    program=$folder/out/$1
  fi
  mkdir "$scratch/at" && cd "$scratch/at" || exit 1
}

# fail WHAT: says what is wrong, and ends
fail() {
  echo "${0##*/}: $1"
  exit 1
}

# ends STATUS TEXT WORD..: the program ends with this status on these words, and writes this on standard error. It reads the file `input`
ends() {
  local status=$1 text=$2
  shift 2
  "$program" "$@" > ../out 2> ../err < "${input:-/dev/null}"
  local found=$?
  [ $found = "$status" ] || { cat ../err; fail "status $found, not $status: $*"; }
  [ "$(cat ../err)" = "$text" ] || { cat ../err; fail "not '$text': $*"; }
}

# has FILE TEXT WHAT: the file has this text
has() {
  printf -- "$2" | cmp -s - "$1" || { cat "$1"; fail "$3"; }
}

# files NAME..: the folder has these files and no others, hidden ones neither
files() {
  local found
  found=$(shopt -s dotglob && echo *)
  [ "$found" = "$*" ] || fail "not the files $*: $found"
}
