#!/usr/bin/env bash
# bash tests/programs/install.sh [built]: runs `install` into temporary folders, and looks at what it installs, what it says and its status. The
# programs are stand-ins, and so is `rt`, so nothing is proved. Their manual pages and completions are compared with ones that were written by
# hand. With `built`, the programs that the gate has built are installed too.
# The first entry of CHANGELOG.md has the version of `hashbag_shell` and the kit of README.md. The last line is 'install: ok' or says what is wrong.
set -u
export LC_ALL=C
top=$(cd "$(dirname "$0")/../.." && pwd) || exit 1
scratch=$(mktemp -d) || exit 1
trap 'rm -rf "$scratch"' EXIT
programs="hashbag_words hashbag_match hashbag_ledger hashbag_run"

# fail WHAT: says what is wrong, and ends
fail() {
  echo "install: $1"
  exit 1
}

# ends STATUS TEXT WORD..: `install` of the copy ends with this status on these words, and standard error has this text, or is empty
ends() {
  local status=$1 text=$2
  shift 2
  PATH=$scratch/tools:$PATH HOME=$scratch/home bash "$scratch/copy/install" "$@" > "$scratch/out" 2> "$scratch/err"
  local found=$?
  [ $found = "$status" ] || { cat "$scratch/out" "$scratch/err"; fail "status $found, not $status: $*"; }
  if [ -n "$text" ]; then
    grep -qF -e "$text" "$scratch/err" || { cat "$scratch/err"; fail "no '$text': $*"; }
  elif [ -s "$scratch/err" ]; then
    cat "$scratch/err"
    fail "something on standard error: $*"
  fi
}

# proved NAME..: `rt run` was called for these, and for no other, since the last look
proved() {
  [ "$(xargs < "$scratch/calls")" = "$*" ] || { cat "$scratch/calls"; fail "not proved alone: $*"; }
  : > "$scratch/calls"
}

# files FOLDER NAME..: the folder has these files and no others
files() {
  local folder=$1
  shift
  [ "$(cd "$folder" && echo *)" = "$*" ] || fail "not the files $* of $folder: $(ls -A "$folder")"
}

# stand_in NAME: a program that prints its name
stand_in() {
  printf '#!/bin/sh\necho %s\n' "$1" > "$scratch/copy/crates/$1/out/$1"
  chmod +x "$scratch/copy/crates/$1/out/$1"
}

# reads_in_zsh PREFIX: zsh, if it is there, finds no fault in the syntax of the completions
reads_in_zsh() {
  local file
  [ -n "$(type -P zsh)" ] || { echo "not tried: there is no zsh, which reads its completions"; return 0; }
  for file in "$1"/share/zsh/site-functions/_*; do zsh -n "$file" || fail "the syntax of $file"; done
}

# offers TEXT NAME WORD..: fails unless TEXT is exactly what bash's completion offers for the last word of the command line NAME WORD..
offers() {
  local text=$1
  shift
  # shellcheck disable=SC2034
  COMP_WORDS=("$@") COMP_CWORD=$(($# - 1)) COMPREPLY=()
  "_$1"
  [ "${COMPREPLY[*]}" = "$text" ] || fail "not '$text' but '${COMPREPLY[*]}' are the completions of: $*"
}

# A copy with the crates' folders, a file in each, and stand-ins that are newer.
mkdir -p "$scratch/copy" "$scratch/tools" "$scratch/home"
cp "$top/install" "$top/crates.txt" "$scratch/copy"
for crate in $(sed -n 's/^\([a-z_]*\):.*/\1/p' "$top/crates.txt"); do
  mkdir -p "$scratch/copy/crates/$crate/src" "$scratch/copy/crates/$crate/out"
  echo > "$scratch/copy/crates/$crate/src/lib.rt"
done
mkdir "$scratch/copy/crates/hashbag_shell/proofs"
cp "$top/crates/hashbag_shell/src/lib.rt" "$scratch/copy/crates/hashbag_shell/src/lib.rt"
cp -r "$top/share" "$scratch/copy"
for crate in hashbag_words_lib hashbag_match hashbag_ledger_db; do
  cp "$top/tests/programs/installed/table/$crate.rs" "$scratch/copy/crates/$crate/src/options.rt"
done
find "$scratch/copy" -exec touch -d 2026-01-01 {} +
for name in $programs; do stand_in "$name"; done
mkdir -p "$scratch/copy/docs/use"
cp "$top/tests/programs/installed/hashbag_run.txt" "$scratch/copy/docs/use"
find "$scratch/copy/crates" -path '*/out/*' -exec touch -d 2026-01-02T12:00Z {} +
cat > "$scratch/tools/rt" << END
#!/bin/sh
[ "\$*" = "run -- --version" ] || exit 1
basename "\$PWD" >> "$scratch/calls"
[ ! -e "$scratch/refuses" ] && touch "out/\$(basename "\$PWD")"
END
chmod +x "$scratch/tools/rt"
: > "$scratch/calls"

# All that is built is installed as it is.
version=$(sed -n 's/^pub const VERSION: &str = "\(.*\)";$/\1/p' "$top/crates/hashbag_shell/src/lib.rt")
[[ $version =~ ^[0-9]+\.[0-9]+\.[0-9]+-[0-9]+$ ]] || fail "no version in hashbag_shell: $version"
cd "$scratch" || exit 1
ends 0 "" "a prefix"
proved
for name in $programs; do
  cmp "a prefix/bin/$name" "copy/crates/$name/out/$name" && [ -x "a prefix/bin/$name" ] || fail "the program $name"
done
files "a prefix/bin" hashbag_ledger hashbag_match hashbag_run hashbag_words

# Pages and completions of the stand-ins are as tests/programs/installed says how they are to be, with this version.
find "a prefix/share/man" -type f -exec sed -i "1s/\"hashbag $version\"$/\"hashbag VERSION\"/" {} +
for page in "$top"/tests/programs/installed/man1/*; do diff "$page" "a prefix/share/man/man1/${page##*/}" || fail "the page ${page##*/}"; done
reads_in_zsh "a prefix"
diff "$top/tests/programs/installed/zsh/_hashbag_words" "a prefix/share/zsh/site-functions/_hashbag_words" || fail "the completions for zsh"

# Completions for bash: a command, options, values from a list, and files in any other place
files "a prefix/share/bash-completion/completions" hashbag_ledger hashbag_match hashbag_run hashbag_words
mkdir at && cd at && touch 'chair leg'
for name in $programs; do
  # shellcheck disable=SC1090
  . "../a prefix/share/bash-completion/completions/$name" && complete -p "$name" > /dev/null || fail "no completions of $name"
done
offers "chair leg count merge" hashbag_words ""
offers "chair leg count" hashbag_words c
offers "merge" hashbag_words me
offers "chair leg" hashbag_words text c
offers "chair leg" hashbag_words count c
offers "-h --help -V --version --by -o --output -n --top" hashbag_words -
offers "--by -o --output -h --help -n --top" hashbag_words count -
offers "--fold --help" hashbag_words merge --
offers "--output" hashbag_words --o
offers "word line" hashbag_words --by ""
offers "line" hashbag_words count --by l
offers "word line" hashbag_words count --by =
offers "word" hashbag_words count text --by = w
offers "chair leg" hashbag_words count --output = c
offers "chair leg" hashbag_words count -o ""
offers "" hashbag_words merge --by
offers ". \\, tab \\\\t" hashbag_ledger total --mark ""
offers "enter" hashbag_ledger e
offers "chair leg" hashbag_ledger undo --db ""
offers "--to --mark -h --help -V --version" hashbag_match -
offers ". \\\\ \\  \\\\t" hashbag_match --mark ""
offers "chair leg" hashbag_run c
cd ..
grep -qF "$scratch/a prefix/bin is not on your PATH" out || fail "nothing said of PATH"

# A second time, over a program that runs; and to the folder that is taken where none is named
ends 0 "" "a prefix"
ends 0 ""
[ -x home/.local/bin/hashbag_run ] && [ -s home/.local/share/man/man1/hashbag_run.1 ] || fail "nothing in ~/.local"
(PATH=$scratch/home/.local/bin:$PATH HOME=$scratch/home bash copy/install > out) || fail "a prefix that is on PATH"
grep -q PATH out && fail "a prefix that is on PATH is said not to be"

# What is older than a file of its crates is proved; others aren't.
touch copy/crates/hashbag_words_lib/src/lib.rt
ends 0 "" "a prefix" && proved hashbag_words
touch copy/crates/hashbag_shell/proofs/new
ends 0 "" "a prefix" && proved hashbag_words hashbag_match hashbag_ledger
grep -q '^install: hashbag_ledger isn.t built' out && grep -q 'takes .* minutes' out || fail "nothing said of how long it takes"
touch copy/crates.txt copy/crates/hashbag_callers/src/lib.rt
ends 0 "" "a prefix" && proved
rm copy/crates/hashbag_match/out/hashbag_match
ends 1 "install: hashbag_match wasn't proved and built" other && [ -z "$(ls -A other/bin)" ] || fail "programs of a failed run"
stand_in hashbag_match
: > calls

# A proof that fails, and no rt
touch refuses copy/crates/hashbag_ledger/src/lib.rt
ends 1 "install: hashbag_ledger wasn't proved and built" other && proved hashbag_ledger
[ -z "$(find other -type f)" ] || fail "files after a failed proof"
mv tools/rt away
(PATH=$scratch/tools:/usr/bin:/bin HOME=$scratch/home bash copy/install other > out 2> err)
status=$?
if [ -z "$(PATH=/usr/bin:/bin type -P rt)" ]; then
  [ $status = 1 ] && grep -q '^install: there is no command rt' err || { cat err; fail "status $status without rt"; }
fi
mv away tools/rt && rm refuses && stand_in hashbag_ledger

# A table with a line that can't be read
for edit in 's/| of x y/| off x y/ no note' 's/| A form |/| A form | not --tu |/ no such name' 's/"A.csv/"@ a/ no job' 's/ | A list// no help'; do
  sed -i "${edit% no *}" copy/crates/hashbag_match/src/options.rt
  touch copy/crates/hashbag_match/out/hashbag_match
  ends 1 "no ${edit##* no }: " other && proved
  grep -q "^install: the table of hashbag_match can't be read" err || { cat err; fail "a table is read: $edit"; }
  cp "$top/tests/programs/installed/table/hashbag_match.rs" copy/crates/hashbag_match/src/options.rt
done
touch copy/crates/*/out/hashbag_match
[ -z "$(find other -type f)" ] || fail "files after a table that can't be read"

# No page of hashbag_run
mv copy/docs/use/hashbag_run.txt page
ends 1 "install: the table of hashbag_run can't be read" other && proved
[ -z "$(find other -type f)" ] || fail "files without a page"
mv page copy/docs/use/hashbag_run.txt

# Arguments, and a prefix that can't be written: nothing is proved before that is said
touch copy/crates/hashbag/src/lib.rt
ends 0 "" --help && cp out help && ends 0 "" -h && cmp out help || fail "-h and --help"
for name in $programs PREFIX share/man/man1 bash-completion/completions zsh/site-functions /.local 'Exit status'; do grep -qF -e "$name" help || fail "no $name in the help"; done
ends 2 "install: no such option: --wrong" --wrong
ends 2 "install: no such option: -x" -x other
ends 2 "install: more than one PREFIX" one two
ends 2 "install: PREFIX is empty" ""
(unset HOME && bash copy/install > out 2> err)
[ $? = 2 ] && grep -q '^install: HOME is not set' err || fail "no HOME"
ends 4 "install: can't make the folders of help: Not a directory" help
ends 4 "install: can't make the folders of /dev/null/x: Not a directory" /dev/null/x
mkdir -p full/bin/hashbag_words/file && ends 0 "" --help && proved
find copy/crates -path '*/out/*' -exec touch {} +
ends 4 "install: can't write $scratch/full/bin/hashbag_words" full
[ -z "$(find . -name '*.tmp*')" ] || fail "temporary files are left"

# The version, and the kit that it is proved with
logic=$(grep -o 'logic `[0-9a-f]*`' "$top/README.md" | head -n 1) && [ "$(grep -o 'logic `[0-9a-f]*`' "$top/CHANGELOG.md" | head -n 1)" = "$logic" ] || fail "CHANGELOG's first entry doesn't name README's $logic"
[ "$(sed -n 's/^## \([^ ]*\).*/\1/p' "$top/CHANGELOG.md" | head -n 1)" = "$version" ] || fail "CHANGELOG.md doesn't begin with $version"

# The crates that docs/use/INSTALL.md copies into another repository use no other crate of this one.
copied=$(sed -n "s/^ *grep -E '\(.*\)' .*crates\.txt > crates\.txt\$/\1/p" "$top/docs/use/INSTALL.md")
grep -E "$copied" "$top/crates.txt" > lines
[ "$(wc -l < lines)" = 6 ] || { cat lines; fail "not six crates to copy"; }
for used in $(cut -d : -f 2 lines); do
  grep -q "^$used:" "$top/crates.txt" && ! grep -q "^$used:" lines && fail "docs/use/INSTALL.md doesn't copy $used"
done

# words_of: the words of standard input, sorted
words_of() {
  tr -cs 'A-Za-z0-9' '\n' | sort
}

# text_of: the text of a page that is standard input, without its roff
text_of() {
  sed -e '/^\.[A-Za-z]/d' -e 's/\\f[BIR]//g' -e "s/\\\\(aq/'/g" -e 's/\\(ga/`/g' -e 's/\\(ha/^/g' -e 's/\\(ti/~/g' -e 's/\\[-&]/-/g' -e 's/\\e/\\/g'
}

# holds NAME COMMAND..: the page of a program, or of its command, has all words of its help that aren't headings, and nothing but examples as it is
holds() {
  local page help missing
  page=real/share/man/man1/$(tr ' ' - <<< "$*").1
  if [ "$1" = hashbag_run ]; then help=$(cat "$top/docs/use/hashbag_run.txt"); else help=$("real/bin/$1" "${@:2}" --help); fi
  missing=$(sed -e '/^[A-Z][A-Za-z ]*:$/d' -e '/^  help  /d' -e 's/^\(Usage\|Status\|Exit status\|Example\): //' -e 's/\[default: //' \
    -e 's/\[possible values: //' <<< "$help" | words_of | comm -23 - <(text_of < "$page" | words_of))
  [ -z "$missing" ] || fail "the page of $* hasn't: $(xargs <<< "$missing")"
  for heading in NAME SYNOPSIS DESCRIPTION "EXIT STATUS" EXAMPLES "SEE ALSO"; do
    grep -qx "\.SH $heading" "$page" || fail "no $heading in the page of $*"
  done
  ! sed '/^\.SH EXAMPLES$/,/^\.SH SEE/d' "$page" | grep -nx '\.nf' || fail "lines that aren't filled in the page of $*"
}

if [ "${1-}" = built ]; then
  # One that isn't built would be proved for long: this `rt` fails at once.
  touch refuses
  PATH=$scratch/tools:$PATH bash "$top/install" real > out 2> err || { cat out err; fail "the programs that were built"; }
  proved
  for name in hashbag_words hashbag_match hashbag_ledger; do
    [ "$(real/bin/"$name" --version | cut -d ' ' -f 1-2)" = "$name $version" ] || fail "the version of $name"
  done
  # Each command has a page.
  jobs="balance batches close count enter history put show take total undo verify"
  # shellcheck disable=SC2046,SC2086
  files real/share/man/man1 $(printf 'hashbag_ledger-%s.1 ' $jobs) hashbag_ledger.1 hashbag_match.1 hashbag_run.1 \
    hashbag_words-{common,count,less,merge,tokens}.1 hashbag_words.1
  for name in $programs; do holds "$name"; done
  for name in $jobs; do holds hashbag_ledger "$name"; done
  for name in common count less merge tokens; do holds hashbag_words "$name"; done
  # The examples of share/examples run, in turn.
  cd at && cp "$top"/crates/hashbag_ledger/data/* .
  printf 'cat\t1\n' | tee monday.tsv > tuesday.tsv
  echo 'The cat' > letter.txt
  printf 'article,number\nbolt,9\n' > counted.csv
  ../real/bin/hashbag_ledger enter --db stock.db --from stock.csv monday.csv > ../out 2> ../err
  while read -r name words; do
    # shellcheck disable=SC2086
    "../real/bin/$name" $words > ../out 2> ../err || { status=$?; cat ../err; fail "status $status: $name $words"; }
  done < "$top/share/examples"
  cd ..
  # Any arguments are ignored: the same bytes and status as without.
  run=$top/crates/hashbag_run
  for words in "" --help --version "x y" "-x --y=z"; do
    # shellcheck disable=SC2086
    real/bin/hashbag_run $words < "$run/stdin" > out 2> err && cmp out "$run/stdout" && [ ! -s err ] || fail "hashbag_run $words"
    # shellcheck disable=SC2086
    printf 'a insert 1\nc insert 2\na insert\n' | real/bin/hashbag_run $words > out 2> err
    [ $? = 2 ] && [ "$(cat out)" = "bad line 2" ] && [ ! -s err ] || fail "hashbag_run $words, at a bad line"
  done
  # Completions: of a value, a command, and an option
  reads_in_zsh real
  for name in $programs; do
    # shellcheck disable=SC1090
    . "real/share/bash-completion/completions/$name" || fail "the completions of $name"
  done
  offers "table csv json" hashbag_match --to ""
  offers "enter" hashbag_ledger en
  offers "--files-from" hashbag_words --fil
  offers "uniq" hashbag_words merge --from u
fi
echo "install: ok"
