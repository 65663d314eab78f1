#!/usr/bin/env bash
# bash tests/programs/refused_programs.sh NAME..: refuses requests for memory of programs that were built, one in each run: the first one, then the
# second, and so on, until a run makes fewer. Each program runs on the arguments, the input and the files beside its source, hashbag_words on
# each of its other jobs, and hashbag_ledger also on a database.
# Then it lets writes fail of the jobs that write as they read, in the same way: such a run ends with status 4, and leaves all files as they were.
# It lets changes of a database's files fail too: such a run ends with status 4, and the stock is the one before or after.
# It watches how an output is made. What is written is synced before it gets its name, and the folder after that. The file of an
# output that is there is its owner's alone until it has that output's mode, and one that is new has the mode of any new file. Of two files
# whose numbers are the same but for those of their devices, neither is taken for the other.
#
# A run in which a request was refused ends with status 3 and writes nothing but on standard error; or the program does without what was
# refused, as std's sort does, and then ends as it does with all memory. If a subcommand of hashbag_ledger ends with 3, the stock is the one
# before, and nothing is said to be entered that isn't. A library that is loaded before the C library's counts the requests: it needs the C
# compiler `cc`.
set -u
top=$(cd "$(dirname "$0")/../.." && pwd) || exit 1
scratch=$(mktemp -d) || exit 1
trap 'rm -rf "$scratch"' EXIT

cat > "$scratch/refuse.c" << 'END'
#define _GNU_SOURCE
#include <dlfcn.h>
#include <errno.h>
#include <fcntl.h>
#include <stdarg.h>
#include <stdio.h>
#include <stdlib.h>
#include <string.h>
#include <sys/stat.h>
#include <unistd.h>
static long left = -1, made = 0;
static int is_refused(void) {
  made++;
  if (left < 0) { const char *said = getenv("REFUSED"); left = said ? atol(said) : 0; }
  if (left == 0 || --left > 0) return 0;
  if (write(9, "x", 1) != 1) abort();
  errno = ENOMEM;
  return 1;
}
void *malloc(size_t n) {
  static void *(*next)(size_t);
  if (!next) next = (void *(*)(size_t))dlsym(RTLD_NEXT, "malloc");
  return is_refused() ? NULL : next(n);
}
void *realloc(void *p, size_t n) {
  static void *(*next)(void *, size_t);
  if (!next) next = (void *(*)(void *, size_t))dlsym(RTLD_NEXT, "realloc");
  return is_refused() ? NULL : next(p, n);
}
ssize_t write(int fd, const void *p, size_t n) {
  static ssize_t (*next)(int, const void *, size_t);
  static long writes = -1;
  if (!next) next = (ssize_t (*)(int, const void *, size_t))dlsym(RTLD_NEXT, "write");
  if (writes < 0) { const char *said = getenv("UNWRITTEN"); writes = said ? atol(said) : 0; }
  if (fd > 2 && fd < 8 && getenv("WATCHED")) dprintf(8, "write\n");
  if (fd <= 2 || fd == 9 || writes == 0 || --writes > 0) return next(fd, p, n);
  next(9, "x", 1);
  errno = ENOSPC;
  return -1;
}
static int is_unkept(void) {
  static long changes = -1;
  if (changes < 0) { const char *said = getenv("UNKEPT"); changes = said ? atol(said) : 0; }
  if (changes == 0 || --changes > 0) return 0;
  if (write(9, "x", 1) != 1) abort();
  errno = ENOSPC;
  return 1;
}
ssize_t pwrite(int fd, const void *p, size_t n, off_t at) {
  static ssize_t (*next)(int, const void *, size_t, off_t);
  if (!next) next = (ssize_t (*)(int, const void *, size_t, off_t))dlsym(RTLD_NEXT, "pwrite");
  return is_unkept() ? -1 : next(fd, p, n, at);
}
int ftruncate(int fd, off_t n) {
  static int (*next)(int, off_t);
  if (!next) next = (int (*)(int, off_t))dlsym(RTLD_NEXT, "ftruncate");
  return is_unkept() ? -1 : next(fd, n);
}
int fdatasync(int fd) {
  static int (*next)(int);
  if (!next) next = (int (*)(int))dlsym(RTLD_NEXT, "fdatasync");
  return is_unkept() ? -1 : next(fd);
}
static int is_watched(void) { return getenv("WATCHED") != NULL; }
int open(const char *path, int flags, ...) {
  static int (*next)(const char *, int, ...);
  va_list rest;
  int mode = 0;
  if (!next) next = (int (*)(const char *, int, ...))dlsym(RTLD_NEXT, "open");
  if (flags & O_CREAT) {
    va_start(rest, flags);
    mode = va_arg(rest, int);
    va_end(rest);
    if (is_watched()) dprintf(8, "create %o %s\n", mode, path);
  }
  return next(path, flags, mode);
}
int fsync(int fd) {
  static int (*next)(int);
  struct stat found;
  if (!next) next = (int (*)(int))dlsym(RTLD_NEXT, "fsync");
  if (is_watched()) dprintf(8, fstat(fd, &found) == 0 && S_ISDIR(found.st_mode) ? "sync the folder\n" : "sync\n");
  return next(fd);
}
int fchmod(int fd, mode_t mode) {
  static int (*next)(int, mode_t);
  if (!next) next = (int (*)(int, mode_t))dlsym(RTLD_NEXT, "fchmod");
  if (is_watched()) dprintf(8, "mode %o\n", mode & 07777);
  return next(fd, mode);
}
int rename(const char *from, const char *to) {
  static int (*next)(const char *, const char *);
  if (!next) next = (int (*)(const char *, const char *))dlsym(RTLD_NEXT, "rename");
  if (is_watched()) dprintf(8, "rename %s %s\n", from, to);
  return next(from, to);
}
int unlink(const char *path) {
  static int (*next)(const char *);
  if (!next) next = (int (*)(const char *))dlsym(RTLD_NEXT, "unlink");
  if (is_watched()) dprintf(8, "remove %s\n", path);
  return next(path);
}
int statx(int fd, const char *restrict path, int flags, unsigned mask, struct statx *restrict found) {
  static int (*next)(int, const char *, int, unsigned, struct statx *);
  int status;
  if (!next) next = (int (*)(int, const char *, int, unsigned, struct statx *))dlsym(RTLD_NEXT, "statx");
  status = next(fd, path, flags, mask, found);
  if (status == 0 && getenv("ONE_NUMBER")) {
    found->stx_ino = 7;
    found->stx_dev_minor = strstr(path, "elsewhere") ? 1 : 0;
  }
  return status;
}
__attribute__((destructor)) static void tell(void) {
  if (getenv("COUNTED")) dprintf(9, "%ld\n", made);
}
END
cc -shared -fPIC -O1 -o "$scratch/refuse.so" "$scratch/refuse.c" -ldl || exit 1

# run REQUEST: one run of the program with that request refused, in its folder of files
run() {
  rm -rf "$scratch/at" && cp -r "$scratch/files" "$scratch/at"
  (cd "$scratch/at" && REFUSED=$1 LD_PRELOAD="$scratch/refuse.so" "$program" "${words[@]}" < "$input" > "$scratch/out" 2> "$scratch/err" 9> "$scratch/refused")
}

# same_files: a run left all files as they were
same_files() {
  diff -r "$scratch/files" "$scratch/at"
}

# How it is known that a run changed nothing.
unchanged=same_files

# Which request is refused first, and how far the next one is from it: subcommands of hashbag_ledger make thousands. By hand STRIDE=1 refuses
# each in turn; four processes with STRIDE=4 do so too, the n-th with FIRST=n.
first=1
stride=1

# refuse STATUS: each request of one run, which ends with that status where all memory is there, and writes what $scratch/wanted has
refuse() {
  local request=$((first - stride)) tried=0 without=0 status wanted=$1
  while :; do
    request=$((request + stride)) tried=$((tried + 1))
    run "$request"
    status=$?
    if [ "$status" = "$wanted" ] && cmp -s "$scratch/out" "$scratch/wanted"; then
      [ -s "$scratch/refused" ] || break
      without=$((without + 1))
    elif [ "$status" != 3 ] || [ -s "$scratch/out" ] || [ ! -s "$scratch/refused" ] || ! $unchanged; then
      cat "$scratch/err"
      echo "refused memory: $name ${words[*]}: request $request: status $status"
      return 1
    fi
  done
  [ "$tried" -gt 1 ] && [ "$without" -lt $((tried - 1)) ] || { echo "refused memory: $name: no request was refused"; return 1; }
  said_of "$((tried - 1))" "$without"
}

# said_of TRIED WITHOUT: what the last line of such runs says
said_of() {
  if [ "$stride" = 1 ]; then
    echo "refused memory: $name: each of $1 requests in turn, of which it does without $2: ${words[*]}"
  else
    echo "refused memory: $name: $1 requests in turn, one of $stride each, of which it does without $2: ${words[*]}"
  fi
}

# fail_writes WORD..: each write to a file of a run on these words, whose output is the file `out`
fail_writes() {
  local write=0 status
  words=("$@" -o out)
  while :; do
    write=$((write + 1))
    UNWRITTEN=$write run 0
    status=$?
    [ -s "$scratch/refused" ] || break
    if [ "$status" != 4 ] || [ -s "$scratch/out" ] || ! diff -r "$scratch/files" "$scratch/at"; then
      cat "$scratch/err"
      echo "failed writes: $name ${words[*]}: write $write: status $status"
      return 1
    fi
  done
  [ "$status" = 0 ] && [ "$write" -gt 2 ] && ! cmp -s "$scratch/files/out" "$scratch/at/out" || { echo "failed writes: $name: no write failed"; return 1; }
  echo "failed writes: $name: each of $((write - 1)) writes in turn: ${words[*]}"
}

# on_its_files: the run whose arguments, input and files are beside the program's source
on_its_files() {
  local here=$top/crates/$name wanted=0
  rm -rf "$scratch/files" && mkdir "$scratch/files" && { [ ! -d "$here/data" ] || cp "$here/data"/* "$scratch/files"; }
  cp "$here/stdout" "$scratch/wanted"
  words=()
  [ ! -f "$here/args" ] || mapfile -t words < "$here/args"
  input=/dev/null
  [ ! -f "$here/stdin" ] || input=$here/stdin
  [ ! -f "$here/status" ] || wanted=$(cat "$here/status")
  refuse "$wanted" && keeps_an_output "$wanted"
}

# watch WORD..: a run on these words, in its folder of files. What it does with files is in $scratch/calls
watch() {
  words=("$@")
  rm -rf "$scratch/at" && cp -rp "$scratch/files" "$scratch/at"
  (cd "$scratch/at" && WATCHED=1 REFUSED=0 LD_PRELOAD="$scratch/refuse.so" "$program" "${words[@]}" < "$input" > "$scratch/out" 2> "$scratch/err" 8> "$scratch/watched" 9> "$scratch/refused")
  status=$?
  uniq "$scratch/watched" > "$scratch/calls"
}

# makes_an_output STATUS CALLS WORD..: a run on these words with the output `out` ends with this status, and does this with files
makes_an_output() {
  local status wanted=$1 calls=$2
  shift 2
  watch "$@" -o out
  [ "$status" != "$wanted" ] || ! printf %b "$calls" | cmp -s - "$scratch/calls" || return 0
  cat "$scratch/err" "$scratch/calls"
  echo "watched files: $name ${words[*]}: status $status, and not these calls:"
  printf %b "$calls"
  return 1
}

# keeps_an_output STATUS: the run beside the program's source with an output. A temporary file is created, written, synced, and only then gets the name.
# If the output is there, the temporary file is created for its owner alone, with no more than the output's mode
keeps_an_output() {
  local given=("${words[@]}") modes=('600 600' '600 644') at mode
  makes_an_output "$1" 'create 666 .hashbag-0.tmp\nwrite\nsync\nrename .hashbag-0.tmp out\nsync the folder\n' "${given[@]}" || return 1
  at=$(cd "$scratch/at" && pwd -P)
  # Only root can copy a file that may not be read.
  [ "$(id -u)" != 0 ] || modes+=('200 200')
  for mode in "${modes[@]}"; do
    printf 'old\n' > "$scratch/files/out" && chmod "${mode#* }" "$scratch/files/out" || return 1
    makes_an_output "$1" "create ${mode% *} $at/.hashbag-0.tmp\nmode ${mode#* }\nwrite\nsync\nrename $at/.hashbag-0.tmp $at/out\nsync the folder\n" \
      "${given[@]}" || return 1
  done
  rm -f "$scratch/files/out"
  echo "watched files: $name: an output is synced before it gets its name, and is its owner's alone until it has the mode of what it replaces"
}

# tells_devices: of files with one number on two devices hashbag_match takes the one for no other; on one device it does
tells_devices() {
  local status
  export ONE_NUMBER=1
  cp "$scratch/files/ordered.csv" "$scratch/files/elsewhere.csv"
  watch ordered.csv delivered.csv -o elsewhere.csv
  [ "$status" = 1 ] && watch ordered.csv delivered.csv -o delivered.csv && [ "$status" = 2 ] &&
    [ "$(cat "$scratch/err")" = "hashbag_match: the output is one of the inputs" ]
  status=$?
  unset ONE_NUMBER
  [ "$status" = 0 ] && echo "watched files: $name: one number on two devices" && return
  cat "$scratch/err"
  echo "watched files: $name: devices aren't distinguished"
  return 1
}

# prints TEXT WORD..: a run on these words that ends with status 0 and writes this text
prints() {
  printf "$1" > "$scratch/wanted"
  shift
  words=("$@")
  refuse 0
}

# requests_of N: how many requests hashbag_words makes on N lines of one word
requests_of() {
  yes cat | head -n "$1" > "$scratch/text"
  COUNTED=1 REFUSED=0 LD_PRELOAD="$scratch/refuse.so" "$program" < "$scratch/text" > "$scratch/out" 9> "$scratch/counted" && cat "$scratch/counted"
}

# counts_without_memory: a word that was counted before is counted again without a request
counts_without_memory() {
  local few many
  few=$(requests_of 1000) && many=$(requests_of 9000) && [ -n "$few" ] && [ "$few" = "$many" ] && return
  echo "refused memory: hashbag_words: $few requests for a word 1000 times, $many for 9000 times"
  return 1
}

# on_counts: the other jobs of hashbag_words
on_counts() {
  rm -rf "$scratch/files" && mkdir "$scratch/files" && input=/dev/null
  printf 'cat\t2\ndog\t1\n' > "$scratch/files/a"
  printf 'cat\t1\na\\tb\t3\n' > "$scratch/files/b"
  printf '      2 cat\n' > "$scratch/files/uniq"
  printf 'a\nb\n' > "$scratch/files/list"
  prints 'a\\tb\t3\ncat\t3\ndog\t1\n' merge a b && prints 'cat\t1\ndog\t1\n' less a b && prints 'cat\t1\n' common a b &&
    prints 'cat\t2\n' merge --from uniq uniq && prints '[["cat",2],["dog",1]]\n' merge --to json a &&
    prints '' merge --files-from list -o out && on_streams
}

# on_streams: tokens that are written as lines, and sums of rows in order, as they come
on_streams() {
  rm -rf "$scratch/files" && mkdir "$scratch/files"
  printf 'b a\nc\nb' > "$scratch/files/text"
  printf 'a\\tb\t3\na\\tb\t2\ncat\t1\n' > "$scratch/files/sorted"
  printf 'b\nd\n' > "$scratch/files/stop"
  prints 'a\t1\n' --field 2 text && prints 'a\t1\nc\t1\n' --except stop text &&
    prints 'a\t1\t25.00\nb\t2\t50.00\nc\t1\t25.00\n' --share text &&
    prints 'b\na\nc\nb\n' tokens text && prints '' tokens --by lines --fold text -o out &&
    prints '' merge --sorted sorted -o out &&
    printf 'old\n' > "$scratch/files/out" && fail_writes tokens text && fail_writes merge --sorted sorted &&
    on_long_lines
}

# on_long_lines: an output of more than one part, of which nothing is written unless all memory is there. The last row of the second one is as
# long as two parts, since each of its bytes is six of JSON, and it comes after a whole part
on_long_lines() {
  local letter
  for letter in '\001' a a b b c c; do printf '%030000d\n' 0 | tr 0 "$letter"; done > "$scratch/files/text"
  uniq -c "$scratch/files/text" > "$scratch/text"
  words=(--by lines text) && awk '{ print $2 "\t" $1 }' "$scratch/text" > "$scratch/wanted" && refuse 0 &&
    awk '{ printf "[\"%s\",%d]\n", $2, $1 }' "$scratch/text" | sed 's/\x01/\\u0001/g' > "$scratch/rows" &&
    words=(--by lines --to json --top 4 text) && (tail -n 3 "$scratch/rows" && head -n 1 "$scratch/rows") | paste -sd , | sed 's/.*/[&]/' > "$scratch/wanted" && refuse 0 &&
    fail_writes --by lines text
}

# stock_in DATABASE: the batches and the balance of a database in the folder of a run, or nothing if there is none, or one without a stock, to
# which the program says so; the program verifies it too
stock_in() {
  [ -s "$scratch/at/$1" ] || [ -s "$scratch/at/$1-wal" ] || return 0
  if ! (cd "$scratch/at" && "$program" verify --db "$1" > /dev/null 2> "$scratch/verified"); then
    [ "$(cat "$scratch/verified")" = "hashbag_ledger: $1: no stock in it yet" ] || { cat "$scratch/verified"; return 1; }
    return 0
  fi
  (cd "$scratch/at" && "$program" balance --db "$1" && "$program" batches --db "$1" | cut -d , -f 1-5,7-)
}

# refuse_kept STATUS DATABASE WORD..: each request of a run on these words, which changes that database. If it does without one, it writes what
# it writes with all memory
refuse_kept() {
  local request=$((first - stride)) tried=0 without=0 wanted=$1 db=$2 status before after now
  shift 2
  words=("$@")
  rm -rf "$scratch/at" && cp -r "$scratch/files" "$scratch/at"
  before=$(stock_in "$db")
  run 0
  [ $? = "$wanted" ] || { cat "$scratch/err"; echo "refused memory: $name ${words[*]}: not status $wanted with all memory"; return 1; }
  cp "$scratch/err" "$scratch/said"
  cp "$scratch/out" "$scratch/wanted"
  after=$(stock_in "$db") || return 1
  [ "$before" != "$after" ] || { echo "refused memory: $name ${words[*]}: nothing is written"; return 1; }
  while :; do
    request=$((request + stride)) tried=$((tried + 1))
    run "$request"
    status=$?
    [ -s "$scratch/refused" ] || break
    if diff -r "$scratch/files" "$scratch/at" > "$scratch/differ"; then now=$before; else now=$(stock_in "$db"); fi || { echo "refused memory: $name ${words[*]}: request $request: the stock is damaged"; return 1; }
    if [ "$status" = "$wanted" ] && cmp -s "$scratch/err" "$scratch/said" && cmp -s "$scratch/out" "$scratch/wanted" && [ "$now" = "$after" ]; then
      without=$((without + 1))
    elif [ "$status" != 3 ] || [ -s "$scratch/out" ] || [ "$now" != "$before" ]; then
      cat "$scratch/err"
      echo "refused memory: $name ${words[*]}: request $request: status $status"
      return 1
    fi
  done
  [ "$status" = "$wanted" ] && [ "$tried" -gt 1 ] && [ "$without" -lt $((tried - 1)) ] || { echo "refused memory: $name: no request was refused"; return 1; }
  said_of "$((tried - 1))" "$without"
}

# fail_kept STATUS DATABASE WORD..: each change of a database's files fails, as on a full disk, of a run on these words, which changes that
# database. The stock is then the one before or after. If the run ends as it does on a disk with room, it is the one after, and the run writes
# the same.
fail_kept() {
  local change=0 wanted=$1 db=$2 status before after now
  shift 2
  words=("$@")
  rm -rf "$scratch/at" && cp -r "$scratch/files" "$scratch/at"
  before=$(stock_in "$db")
  run 0
  cp "$scratch/out" "$scratch/wanted"
  after=$(stock_in "$db") || return 1
  while :; do
    change=$((change + 1))
    UNKEPT=$change run 0
    status=$?
    [ -s "$scratch/refused" ] || break
    now=$(stock_in "$db") || { echo "failed changes: $name ${words[*]}: change $change: the stock is damaged"; return 1; }
    if { [ "$status" = "$wanted" ] && cmp -s "$scratch/out" "$scratch/wanted" && [ "$now" = "$after" ]; } || { [ "$status" = 4 ] && [ ! -s "$scratch/out" ] && { [ "$now" = "$before" ] || [ "$now" = "$after" ]; }; }; then
      continue
    fi
    cat "$scratch/err"
    echo "failed changes: $name ${words[*]}: change $change: status $status"
    return 1
  done
  [ "$status" = "$wanted" ] && [ "$change" -gt 2 ] || { echo "failed changes: $name ${words[*]}: no change failed"; return 1; }
  echo "failed changes: $name: each of $((change - 1)) in turn: ${words[*]}"
}

# same_stock: a run left the stock of `s.db` as it was, though it may have written its files anew, as SQLite does when it opens them
same_stock() {
  same_files > "$scratch/differ" || [ "$(stock_in s.db)" = "$stock" ]
}

# shows STATUS WORD..: each request of a run on these words, which reads a database. It writes what it writes with all memory
shows() {
  local wanted=$1
  shift
  words=("$@")
  run 0
  [ $? = "$wanted" ] || { cat "$scratch/err"; echo "refused memory: $name ${words[*]}: not status $wanted with all memory"; return 1; }
  [ -s "$scratch/out" ] || { echo "refused memory: $name ${words[*]}: nothing is written"; return 1; }
  cp "$scratch/out" "$scratch/wanted"
  refuse "$wanted"
}

# on_a_stock: the subcommands of hashbag_ledger, on a database with two batches
on_a_stock() {
  first=${FIRST:-1} stride=${STRIDE:-31}
  rm -rf "$scratch/files" && mkdir "$scratch/files" && input=/dev/null
  printf 'article,number\nbolt,10\nnut,40\n' > "$scratch/files/stock.csv"
  printf 'article,change\nbolt,-4\nbolt,-7\nwasher,3\n' > "$scratch/files/monday.csv"
  printf 'article,change\nnut,-40\nbolt,2\nscrew,-1\n' > "$scratch/files/tuesday.csv"
  printf 'article,change,day,why\nnut,-40,2026-01-02,sold\nscrew,-1,2026-01-03,\n' > "$scratch/files/dated.csv"
  printf 'article,number\nbolt,1\nscrew,2\nbolt,3\n' > "$scratch/files/counted.csv"
  (cd "$scratch/files" && "$program" enter --db s.db --from stock.csv monday.csv 2> /dev/null)
  [ $? = 1 ] || { echo "refused memory: $name: no database"; return 1; }
  rm -rf "$scratch/at" && cp -r "$scratch/files" "$scratch/at" && stock=$(stock_in s.db) && [ -n "$stock" ] || return 1
  unchanged=same_stock
  refuse_kept 1 s.db enter --db s.db tuesday.csv && refuse_kept 1 new.db enter --db new.db monday.csv &&
    refuse_kept 0 s.db undo --db s.db 2 && refuse_kept 0 new.db close --db s.db --into new.db &&
    fail_kept 1 s.db enter --db s.db tuesday.csv && fail_kept 1 new.db enter --db new.db monday.csv &&
    fail_kept 0 s.db undo --db s.db 2 && fail_kept 0 new.db close --db s.db --into new.db &&
    refuse_kept 1 s.db take --db s.db nut 41 && refuse_kept 0 s.db put --db s.db nut 1 &&
    refuse_kept 1 s.db enter --db s.db --date day --note why dated.csv && shows 0 balance --db s.db --at 2026-01-02 &&
    refuse_kept 0 s.db count --db s.db --all counted.csv && fail_kept 0 s.db count --db s.db --all counted.csv &&
    shows 0 balance --db s.db nut && shows 0 history --db s.db bolt && shows 0 batches --db s.db && shows 0 verify --db s.db &&
    shows 0 show --db s.db 2 && shows 0 balance --db s.db --to table && shows 0 balance --db s.db --to json
}

for name in "$@"; do
  program=$top/crates/$name/out/$name
  [ -x "$program" ] || { echo "refused memory: $name isn't built"; exit 1; }
  on_its_files || exit 1
  [ "$name" != hashbag_words ] || { on_counts && counts_without_memory; } || exit 1
  [ "$name" != hashbag_match ] || tells_devices || exit 1
  [ "$name" != hashbag_ledger ] || on_a_stock || exit 1
done
