#!/usr/bin/env bash
# bash tests/programs/words.sh [PROGRAM]: the program `hashbag_words` as mapper, combiner and reducer, and how it ends. The program is proved and
# compiled first, unless it is named. The last line is 'words: ok' or says what is wrong.
. "$(dirname "$0")/lib.sh"
begin hashbag_words "$@"

# is FILE FILE WHAT: both files are the same
is() {
  cmp -s "$1" "$2" || { diff "$1" "$2" | head -n 5; fail "$3"; }
}

# What is said of a line that isn't UTF-8
not_utf8='not UTF-8; if it is Windows-1252, `--encoding Windows-1252` reads it'
not_utf8_counts='not UTF-8; if it is Windows-1252, `iconv -f Windows-1252` reads it'

# ends STATUS TEXT WORD..: the program ends with this status on these words, and says this on standard error
ends() {
  local status=$1 text=$2
  shift 2
  "$program" "$@" > out 2> err < /dev/null
  local found=$?
  [ $found = "$status" ] || fail "status $found, not $status: $*"
  [ "$(cat err)" = "$text" ] || { cat err; fail "not '$text': $*"; }
}

# shows FILE WHAT WORD..: the program ends with status 0 on these words, and writes what this file has
shows() {
  local wanted=$1 what=$2
  shift 2
  "$program" "$@" > found || fail "status $?: $what"
  is found "$wanted" "$what"
}

# counted FILE..: the counts of the words of files, by other programs
counted() {
  cat "$@" | tr -s ' ' '\n' | grep . | sort | uniq -c | awk '{ print $2 "\t" $1 }' | sort
}

# 60,000 words of 1,000 kinds in 10,000 lines, and their counts
awk 'BEGIN { for (i = 0; i < 10000; i++) { for (j = 0; j < 6; j++) printf "w%d ", (i * i + 7 * j) % 1000; print "" } }' > text
counted text > wanted

"$program" text > whole && is whole wanted "the counts of a text"
mkdir parts counts && split -n l/4 text parts/
for run in first second; do
  ls parts | xargs -P 4 -I{} "$program" parts/{} -o counts/{}.tsv && "$program" merge counts/*.tsv > merged && is merged wanted "parts, merged, $run run"
done
cat counts/*.tsv | "$program" merge > merged && is merged wanted "counts that were concatenated"
ls -d counts/* > list && "$program" merge --files-from list > merged && is merged wanted "files from a list"
ls -d parts/* | "$program" --files-from - > found && is found wanted "files of text from a list on standard input"
find parts -type f -print0 | "$program" --null --files-from - > found && is found wanted "files of text from names that end in NUL bytes"

# mapper, sort by key, combiner on each half, sort, reducer
for part in parts/*; do "$program" "$part"; done | sort -k1,1 > mapped
split -n l/2 mapped half. && for half in half.??; do "$program" merge "$half"; done | sort -k1,1 | "$program" merge > reduced
is reduced wanted "mapper, sort, combiner, sort, reducer"
"$program" --to uniq --by lines parts/aa > found && sort parts/aa | uniq -c > sorted && is found sorted "the form of uniq"
"$program" merge --from uniq found sorted > merged && sort parts/aa | uniq -c | awk '{ n = 2 * $1; sub(/^ *[0-9]* /, ""); print $0 "\t" n }' > doubled
is merged doubled "what uniq -c writes, read"

# --encoding: each scalar in UTF-16, with a mark and without one, as iconv writes it, and each byte of the two tables, as Python and iconv read it; a
# line each. The blocks of 64 KiB cut surrogate pairs; a pipe cuts units too
python3 - << 'END' || fail "no texts in encodings"
import collections


def count(text, name):
    found = collections.Counter(line.removesuffix("\r").removeprefix("\ufeff").encode() for line in text.split("\n")[:-1])
    with open(name, "wb") as file:
        for token, n in sorted(found.items()):
            file.write(b"%s\t%d\n" % (token.replace(b"\\", b"\\\\").replace(b"\t", b"\\t").replace(b"\r", b"\\r"), n))


scalars = "".join(chr(c) + "\n" for c in range(0x110000) if not 0xD800 <= c < 0xE000)
open("scalars", "w", encoding="utf-8", newline="").write(scalars)
count(scalars, "scalars.tsv")
for name, bad in (("ISO-8859-1", ()), ("CP1252", (0x81, 0x8D, 0x8F, 0x90, 0x9D))):
    table = b"".join(bytes([b, 10]) for b in range(256) if b not in bad)
    open(name, "wb").write(table)
    count(table.decode(name), name + ".tsv")
END
# (one of them is NUL, of which the program tells)
shows scalars.tsv "all scalars" --by lines scalars 2> err && shows scalars.tsv "all scalars in UTF-8" --by lines --encoding UTF-8 scalars 2> err
for order in LE BE; do
  iconv -f UTF-8 -t UTF-16$order scalars > wide || fail "no UTF-16$order"
  shows scalars.tsv "all scalars in UTF-16$order" --by lines --encoding UTF-16$order wide 2> err
  case $order in LE) printf '\377\376' > marked ;; BE) printf '\376\377' > marked ;; esac
  cat wide >> marked
  shows scalars.tsv "all scalars in UTF-16, by its mark: $order" --by lines --encoding UTF-16 marked 2> err
  # a mark is no part of the first token in UTF-16LE and UTF-16BE either, as at the beginning of any line
  shows scalars.tsv "all scalars in UTF-16$order, with a mark" --by lines --encoding UTF-16$order marked 2> err
  for n in 1 2 3 5 131071 300001 400003; do
    shows scalars.tsv "UTF-16 that a pipe cuts after $n bytes: $order" --by lines --encoding UTF-16 < <(head -c $n marked; sleep 0.1; tail -c +$((n + 1)) marked) 2> err
  done
done
for pair in ISO-8859-1:Latin-1 CP1252:Windows-1252; do
  iconv -f ${pair%:*} -t UTF-8 ${pair%:*} > text.utf8 || fail "no ${pair%:*}"
  shows ${pair%:*}.tsv "all bytes of ${pair#*:}, by iconv" --by lines text.utf8 2> err
  shows ${pair%:*}.tsv "all bytes of ${pair#*:}" --by lines --encoding ${pair#*:} ${pair%:*} 2> err
done
for byte in 81 8D 8F 90 9D; do
  printf "a\nb \x$byte\n" > bytes
  iconv -f CP1252 -t UTF-8 bytes > found 2> err && fail "iconv reads $byte"
  for how in "" "--skip-bad"; do ends 2 "hashbag_words: bytes:2: not Windows-1252: byte 0x$byte" $how --encoding Windows-1252 bytes; done
done
printf 'a\nb \377\n' > bytes && ends 2 "hashbag_words: bytes:2: $not_utf8" --encoding UTF-8 bytes && ends 2 "hashbag_words: bytes:2: $not_utf8" --encoding UTF-8 text bytes
printf 'a\tb\0\n' > bytes && ends 0 "hashbag_words: bytes: it has NUL bytes; if it is UTF-16, \`--encoding UTF-16LE\` reads it" --encoding Latin-1 bytes
shows whole "a text in UTF-8 by name" --encoding UTF-8 text
: > empty && for name in UTF-16 UTF-16LE Latin-1; do shows empty "an empty text in $name" --encoding $name empty; done
printf 'a\0\n\0b\0' > wide.txt
ends 2 "hashbag_words: wide.txt:1: not UTF-16: no byte order mark; UTF-16LE and UTF-16BE need none" --encoding UTF-16 wide.txt
ends 0 "" --encoding UTF-16LE wide.txt
printf 'a\0\n\0b\0\n' > wide.txt
ends 2 "hashbag_words: wide.txt:2: not UTF-16: an odd number of bytes" --encoding UTF-16LE wide.txt
for half in '\075\330b\0' '\075\330' '\0\336b\0' '\075\330\075\330\0\336'; do
  printf "a\\0\\n\\0$half" > wide.txt && { printf '\377\376' && cat wide.txt; } > marked.txt && dd conv=swab if=wide.txt of=big.txt 2> err || fail "no half a pair"
  for pair in UTF-16LE:wide.txt UTF-16:marked.txt UTF-16BE:big.txt; do
    iconv -f ${pair%:*} -t UTF-8 ${pair#*:} > found 2> err && fail "iconv reads $half: ${pair%:*}"
    ends 2 "hashbag_words: ${pair#*:}:2: not UTF-16: half a surrogate pair" --encoding ${pair%:*} -o none ${pair#*:}
    [ ! -e none ] || fail "an output of text that isn't UTF-16"
  done
done
printf '\377' > wide.txt
ends 2 "hashbag_words: wide.txt:1: not UTF-16: no byte order mark; UTF-16LE and UTF-16BE need none" --encoding UTF-16 wide.txt
"$program" --encoding utf-7 text > out 2> err
[ $? = 2 ] && [ ! -s out ] && grep -q 'possible values: UTF-8, UTF-16, UTF-16LE, UTF-16BE, Latin-1, Windows-1252' err || fail "an encoding without a name"
for how in "--encoding UTF-16 --lossy" "merge --encoding UTF-16" "less --encoding UTF-16 whole" "--encoding"; do
  "$program" $how whole > out 2> err
  [ $? = 2 ] && [ ! -s out ] || fail "no status 2: $how"
done
printf 'w1\n' > list.txt
grep -v "$(printf '^w1\t')" wanted > shown && iconv -t UTF-16LE text > wide
shows shown "the file of --except is UTF-8" --encoding UTF-16LE --except list.txt wide

# files of counts that are longer than what is read between two reports: 65,536 lines
seq 100000 299999 | awk '{ print $1 "\t" 2 }' > long.tsv
"$program" merge long.tsv long.tsv | awk '{ s += $2 } END { print NR, s }' > found && echo 200000 800000 > sum && is found sum "a long file of counts"
seq 100000 299999 | "$program" --by lines | awk '{ s += $2 } END { print NR, s }' > found && echo 200000 200000 > sum && is found sum "a long text"
awk '{ print $1 "\t" 2 * $2 }' wanted > doubled && "$program" merge wanted wanted > merged && is merged doubled "two files of counts"
python3 -c 'import json, sys; print(json.dumps([[row[0], int(row[1])] for row in (line.split() for line in open("wanted"))], separators=(",", ":")))' > shown && shows shown "a tree" --to json text

# rows are in the order of the tokens; join wants that of the lines
printf 'a\tb\na b\na b\n' > tabs && "$program" --by lines tabs > found && printf 'a\\tb\t1\na b\t2\n' > shown && is found shown "tokens with a tab"
sort -t "$(printf '\t')" -k1,1 found > keyed && join -t "$(printf '\t')" keyed keyed > joined && printf 'a b\t2\t2\na\\tb\t1\t1\n' > shown
is joined shown "rows, sorted and joined"
"$program" less whole whole > found && is found /dev/null "counts less the same"
"$program" common whole merged > found && is found wanted "common counts"

# outputs: whole or not at all, and no input
"$program" -o none/out text > out 2> err
[ $? = 4 ] || fail "no status 4 without the folder of an output"
grep -q '^hashbag_words: none/out: ' err || fail "no name of the output"
printf 'old\n' > old && cp old kept && printf 'a\t1\nb\n' > bad && ends 2 "hashbag_words: bad:2: no tab" merge bad -o kept
is kept old "an output after a bad line"
for how in "trap '' XFSZ; " ''; do
  if { (eval "$how ulimit -c 0 -f 1; exec \"\$program\" text -o kept") > out 2> err; } 2> kills; then fail "an output on a full disk"; fi
  is kept old "an output on a full disk"
done
[ "$(echo .hashbag-*)" = .hashbag-0.tmp ] || fail "what a signal and a full disk leave"
"$program" text -o kept && is kept wanted "an output over another"
[ ! -e .hashbag-0.tmp ] || fail "a file that a killed run left"
ln -s kept link && chmod 640 kept && "$program" merge whole -o link && is kept wanted "an output behind a link" && [ -h link ] || fail "the link"
[ "$(stat -c %a kept)" = 640 ] || fail "the permissions of an output"

# A link to nothing is followed, also through another link and a folder. A file in the place of a temporary one that is none stays
mkdir sub && ln -s sub/end first && ln -s none sub/end && "$program" text -o first && is sub/none wanted "an output behind links to nothing"
[ -h first ] && [ -h sub/end ] || fail "links to nothing"
ln -s kept .hashbag-0.tmp && "$program" text -o kept && is kept wanted "an output beside a link" && [ -h .hashbag-0.tmp ] || fail "a link with the name of a temporary file"
rm .hashbag-0.tmp && mkfifo .hashbag-0.tmp slow_input && "$program" text -o kept && [ -p .hashbag-0.tmp ] || fail "a pipe with the name of a temporary file"

# A second output in the folder leaves the temporary file of the first, which waits for its input
rm .hashbag-0.tmp
exec 7<> slow_input
"$program" slow_input -o slow 7>&- &
until [ -e .hashbag-0.tmp ]; do kill -0 $! || fail "an output that waits for its input"; done
"$program" text -o quick && is quick wanted "an output while another is open" && [ -f .hashbag-0.tmp ] || fail "a temporary file in use"
cat text >&7
exec 7>&-
wait $! && is slow wanted "an output that another was written before" || fail "two outputs"

# The owner and the group of an output are kept by who may give them
chown 1:2 kept 2> err && { "$program" text -o kept && [ "$(stat -c %u:%g kept)" = 1:2 ] || fail "the owner of an output"; }
for group in $(id -G); do
  chgrp "$group" kept && "$program" text -o kept && [ "$(stat -c %g kept)" = "$group" ] || fail "the group of an output"
done
"$program" text -o /dev/stdout > found && is found wanted "an output that is no file of its own"
cp whole in.tsv && ln in.tsv hard.tsv
for name in in.tsv ./in.tsv "$PWD/in.tsv" hard.tsv; do
  ends 2 "hashbag_words: $name: the output is one of the inputs" merge whole in.tsv -o "$name"
done
"$program" merge -o in.tsv < in.tsv 2> err && fail "an output that is standard input"
is in.tsv wanted "an input that is the output, too"
[ "$(echo .hashbag-*)" = '.hashbag-*' ] || fail "temporary files are left"

ends 2 "hashbag_words: standard input is named twice" less - -
ends 2 "hashbag_words: standard input is named twice" common - -
ends 2 "hashbag_words: standard input is named twice" merge - whole -
printf -- '-\nwhole\n-\n' > list && ends 2 "hashbag_words: standard input is named twice" merge --files-from list
printf 'whole\n\nwhole\r\n' > list && "$program" merge --files-from list > found && is found doubled "a list with an empty line"

printf 'a\t1\nb 2\n' > bad.tsv
printf 'a \377\n' > bad.txt
printf 'a\t18446744073709551615\na\t1\n' > many.tsv
ends 2 "hashbag_words: bad.tsv:2: no tab" merge bad.tsv
ends 0 "hashbag_words: bad.tsv: 1 bad line skipped" merge --skip-bad bad.tsv
ends 2 "hashbag_words: bad.txt:1: $not_utf8" bad.txt

# folders: all files in them, in the order of their paths, but no hidden ones and no links
mkdir -p tree/b/c tree/.hidden tree/b-c tree/empty && cp parts/aa tree/b/c/one && cp parts/ab tree/b-c/two && cp parts/ac tree/three && cp parts/ad 'tree/b/ four'
cp text tree/.hidden/text && cp text tree/b/.text && ln -s ../text tree/link && ln -s ../parts tree/links && mkfifo tree/pipe
shows wanted "a folder" -r tree && shows wanted "a folder" --recursive tree/
counted parts/a[abc] > shown && shows shown "folders and a file" -r tree/b/c tree/b-c tree/three
counted parts/a[abd] > shown && shows shown "a folder and standard input" -r tree/b - < parts/ab
counted parts/a[ad] > shown && (cd tree/b && "$program" -r < /dev/null) > found || fail "no status 0 in a folder"
is found shown "the folder that it runs in"
shows wanted "a hidden folder that is named" -r tree/.hidden && ln -s parts named && shows wanted "a link to a folder that is named" -r named
printf 'tree/b\ntree/three\ntree/b-c\n' > list && shows wanted "folders from a list" -r --files-from list
shows wanted "a folder of counts" merge -r counts
shows /dev/null "an empty folder" -r tree/empty
cp bad.txt tree/b/c/zz && cp bad.txt tree/b-c/bad && cp bad.txt tree/bad
ends 2 "hashbag_words: tree/b-c/bad:1: $not_utf8" -r tree && rm tree/b-c/bad
ends 2 "hashbag_words: tree/b/c/zz:1: $not_utf8" -r tree && rm tree/b/c/zz
ends 2 "hashbag_words: tree/bad:1: $not_utf8" -r tree && rm tree/bad
cp parts/ad kept && cp -r tree trees && ends 2 "hashbag_words: trees/three: the output is one of the inputs" -r trees -o trees/three
ends 2 "hashbag_words: --except: trees/three: it is one of the inputs" -r trees --except trees/three
printf 'text\ntree\n' > list
for how in "tree" "text tree -o none/out" "--encoding UTF-16 tree/" "--files-from list" "merge whole tree"; do
  case $how in *tree/) folder=tree/ ;; *) folder=tree ;; esac
  ends 4 "hashbag_words: $folder: a folder; \`-r\` reads the files in it" $how && [ ! -s out ] || fail "an output of a folder: $how"
done
for how in "less tree whole" "common whole tree -o none/out" "merge --sorted tree"; do ends 4 "hashbag_words: tree: a folder" $how; done
"$program" -r no_such_folder > out 2> err
[ $? = 4 ] && [ ! -s out ] && grep -q '^hashbag_words: no_such_folder: ' err || fail "no name of a folder"
"$program" less -r tree tree > out 2> err
[ $? = 2 ] && [ ! -s out ] || fail "a folder of a pair"

# What is no text in UTF-8 by its first bytes is named, with what makes it that; and NUL bytes are never silent
printf 'a\n' | gzip > packed.gz
ends 2 "hashbag_words: packed.gz: gzip; \`zcat\` makes it text" packed.gz
head -c 65536 text > later && cat packed.gz >> later && "$program" --lossy -q later > found || fail "the bytes that gzip begins with, behind the first block"
printf '\377\376a\0\n\0' > wide.txt
printf '\376\377\0a\0\n' > big.txt
for name in wide.txt big.txt; do
  ends 2 "hashbag_words: $name: UTF-16; \`--encoding UTF-16\` reads it" $name
done
ends 0 "$(printf 'hashbag_words: wide.txt: it has NUL bytes; if it is UTF-16, `--encoding UTF-16LE` reads it\nhashbag_words: wide.txt: bytes replaced in 1 line')" --lossy wide.txt
printf 'a\0 a\0\n' > nul.txt
ends 0 "hashbag_words: nul.txt: it has NUL bytes; if it is UTF-16, \`--encoding UTF-16LE\` reads it" nul.txt
ends 5 "hashbag_words: many.tsv:2: total past 2^64-1" merge many.tsv
printf 'dog\t3\ncat\t1' > cut.tsv
ends 2 "hashbag_words: cut.tsv:2: no line feed" merge cut.tsv
ends 0 "hashbag_words: cut.tsv: 1 bad line skipped" merge --skip-bad cut.tsv
printf '\357\273\277cat\t1\ncat\t2\n' > marked.tsv && "$program" merge marked.tsv > found && printf 'cat\t3\n' > shown && is found shown "a byte order mark"
ends 2 "hashbag_words: an argument is not UTF-8" $'\377'
awk '$2 >= 100' wanted > some && [ -s some ] && "$program" --least 100 text > found && is found some "counts from the least on"
"$program" --pattern '[0-9]+' text > found && sed 's/^w//' wanted | sort > numbers && is found numbers "matches of a pattern"
# groups of a pattern: of each match what Python's has in the group, if it took part
printf 'key=1 other=22 key=\nä=é key=1 =3\n\nnone\nx= y= \n' > pairs
for group in 0 1 2 3; do
  python3 - "$group" << 'END' > shown || fail "no groups"
import collections
import re
import sys

pattern, group = re.compile(r"([a-zä]*)=(?:([0-9é]+)|( ))?"), int(sys.argv[1])
found = [m.group(group) for line in open("pairs", encoding="utf-8") for m in pattern.finditer(line.rstrip("\n"))]
for token, count in sorted(collections.Counter(t for t in found if t).items(), key=lambda row: row[0].encode()):
    print(token, count, sep="\t")
END
  shows shown "group $group" --pattern '([a-zä]*)=(?:([0-9é]+)|( ))?' --group $group pairs
done
sed 's/^w//' wanted | sort > numbers && shows numbers "a group of each match" --pattern 'w([0-9]+)' --group 1 text
printf 'A b\na C\n' > cases && printf 'a\t2\n' > shown && shows shown "a group, folded" --fold --pattern '([aA]) ?' --group 1 cases
printf 'a\377b\n' > torn && printf '\357\277\275b\t1\n' > shown && "$program" --lossy --pattern 'a(.*)' --group 1 torn > found 2> err && is found shown "a group with bytes replaced"
printf 'a\t3\n' > shown && printf 'aaa\n' | "$program" --pattern '(a)|(b)' --group 1 > found && is found shown "a group of several matches"
printf 'aaa\n' | "$program" --pattern '(a)|(b)' --group 2 > found && is found /dev/null "a group that took no part"
ends 2 "hashbag_words: --group: 2: the pattern has 1 group" --pattern '(a)' --group 2 text
ends 2 "hashbag_words: --group: 1: the pattern has 0 groups" --pattern 'a' --group 1 text
ends 2 "hashbag_words: --group: 18446744073709551615: the pattern has 2 groups" --pattern '(a)(?<n>b)' --group 18446744073709551615 text
for how in "--group 1" "--group 1 --by lines" "--group 1 --field 2" "--group x --pattern (a)" "--group -1 --pattern (a)" "merge --group 1"; do
  "$program" $how text > out 2> err
  [ $? = 2 ] && [ ! -s out ] || fail "no status 2: $how"
done
# no file is opened for a pattern that is bad, or hasn't the group
for how in "-o none/out none" "--files-from none" "--except none none" "-r none"; do
  ends 2 "hashbag_words: --group: 2: the pattern has 1 group" --pattern '(a)' --group 2 $how
  for pattern in '(' 'a{2,1}' '(?<n'; do
    "$program" --pattern "$pattern" $how > out 2> err
    [ $? = 2 ] && [ ! -s out ] && grep -q '^hashbag_words: --pattern: ' err || fail "a bad pattern: $pattern"
  done
done
ends 0 "" count
ends 1 "" count --fail-empty
"$program" no_such_file > out 2> err
[ $? = 4 ] || fail "no status 4 without a file"
grep -q '^hashbag_words: no_such_file: ' err || fail "no name of the file"
"$program" --top x text > out 2> err
[ $? = 2 ] || fail "no status 2 at a bad argument"

# A tip names what is near to the word that was given, and nothing else
ends 2 "$(printf "error: unexpected argument '--tpo' found\n\nFor more information, try '--help'.")" --tpo 3 text
ends 2 "$(printf "error: invalid value 'union' for '--to <FORM>'\n  [possible values: tsv, json, uniq]\n\nFor more information, try '--help'.")" --to union text
"$program" --feild 3 text > out 2> err
[ $? = 2 ] && grep -qx "  tip: a similar argument exists: '--field'" err || fail "no tip"

# Short options are the long ones
shows whole "short options" -b words text
printf 'b;A\nA;a\n' > fields && printf 'a\t2\n' > shown && shows shown "short options" -i -n 1 -d ';' -f 2 fields
printf 'A\t2\n' > shown && shows shown "short options" -e '[A-Z]' fields
printf 'fields\0' | "$program" -q -0 -b lines --files-from - > found && printf 'A;a\t1\nb;A\t1\n' > shown && is found shown "short options"
"$program" --help > out || fail "no help"
"$program" count --help > out && for heading in 'What is counted:' Inputs: 'What is shown:' Output:; do grep -qx "$heading" out || fail "no heading $heading in the help"; done
# progress of what takes longer than two seconds: the bytes and the rate, and of a pipe neither a percent nor the time that is left
{ echo a && sleep 2.5 && echo a; } | "$program" -b lines --progress > out 2> err
[ "$(tail -n 1 err)" = 'standard input: 0.0 MB, 0.0 MB/s' ] || fail "progress of a pipe"
{ echo a && sleep 2.5 && echo a; } | "$program" -b lines --quiet > out 2> err && [ ! -s err ] || fail "progress with --quiet"
"$program" --help > /dev/full 2> err
[ $? = 4 ] && [ ! -s err ] || fail "a help that can't be written"
for option in --version -V; do
  "$program" $option > out && grep -Eqx 'hashbag_words 0\.1\.13-[0-9]+ \(Unicode [0-9.]+\)' out || fail "no version"
done

# more than one part of an output
seq 1 40000 | awk '{ print "W" ($1 * 7919) % 30011, "w" $1 % 97, "\xc3\x89" $1 % 3 }' > big && printf 'a \357\273\277b\n' >> big
sort big | uniq -c > sorted && shows sorted "more than one part of the output" --by lines --to uniq big
"$program" --by lines big -o shown && "$program" merge --to uniq shown -o found && is found sorted "outputs of more than one part"
"$program" big > big.tsv || fail "no status 0"
# each of these bytes is six of JSON, and one part of the output ends with the whole token
(head -c 70000 /dev/zero | tr '\0' '\1' && echo && echo a) > wide && "$program" --by lines --to json wide > found
python3 -c 'import json; print(json.dumps([["\x01" * 70000, 1], ["a", 1]], separators=(",", ":")))' > shown && is found shown "a wide token as JSON"

# tokens, a line each, which sort and uniq count: they are the counts of `count`, also of tokens with a backslash, a tab and a space in front
printf 'a\\b\n\\\n\\tn\n\ta\n a\n  a\na\n\n\t\n\na\rb\nw1 w2\n5 w1\n\\ta\n  a\n\ta' > odd
sums() { sort -S 1G | uniq -c | sed -E 's/^ *([0-9]+) (.*)$/\2\t\1/'; }
for how in "" "--by unicode --fold" "--by lines" "--by lines --fold" "--pattern w([0-9]+) --group 1" "--pattern .+" "--field 2" "--field 2 --delimiter w" "--lossy --skip-bad"; do
  "$program" tokens $how odd text big | sums > found && "$program" $how odd text big | sort > shown && [ -s shown ] && is found shown "tokens that sort and uniq count: $how"
  "$program" merge --sorted < found > merged && is merged found "sums of sums: $how" && "$program" merge found | sort > merged && is merged found "sums that are merged: $how"
  for part in odd text big; do "$program" tokens $how $part | sums > sums.$part; done
  sort -m sums.odd sums.text sums.big | "$program" merge --sorted > merged && is merged found "sums of parts: $how"
  "$program" tokens $how -o tokens odd text big && sums < tokens > merged && is merged found "tokens in a file: $how"
done
# a byte below the tab: the lines of tsv are in another order than the tokens
printf 'a\na\001\n\001\na\001\n' > low && "$program" --by lines low | sort > shown && "$program" tokens --by lines low | sums | sort | "$program" merge --sorted > found
is found shown "sums of tokens with a byte below the tab"
printf ' A b\n\nc\n' > few && printf 'a\nb\nc\n' > shown && shows shown "tokens in order" tokens --fold few && printf 'few\n' > list && shows shown "tokens of files from a list" tokens --fold --files-from list
printf ' A b\n\nc\n' > shown && shows shown "lines in order" tokens --by lines few && "$program" tokens --by lines < few > found && is found shown "lines of standard input"
shows /dev/null "no tokens" tokens /dev/null && shows wanted "tokens, counted" --by lines <("$program" tokens text)
"$program" tokens -r tree | sums > found && is found wanted "tokens of folders"
iconv -t UTF-16LE few > wide && shows shown "lines in UTF-16" tokens --by lines --encoding UTF-16LE wide
printf 'a\nb \377\nc\n' > bad.txt && cp old kept && ends 2 "hashbag_words: bad.txt:2: $not_utf8" tokens bad.txt -o kept && is kept old "tokens after a bad line"
ends 0 "hashbag_words: bad.txt: 1 bad line skipped" tokens --skip-bad bad.txt && printf 'a\nc\n' > shown && is out shown "tokens without a bad line"
ends 0 "hashbag_words: bad.txt: 1 bad line skipped" --skip-bad bad.txt && printf 'a\t1\nc\t1\n' > shown && is out shown "counts without a bad line"
ends 0 "hashbag_words: bad.txt: bytes replaced in 1 line" tokens --lossy bad.txt && printf 'a\nb\n\357\277\275\nc\n' > shown && is out shown "tokens with bytes replaced"
for how in "--column a" "--top 3" "--to json" "--share" "--except few" "--field 0" "--shard 1/2"; do
  "$program" tokens $how few > out 2> err
  [ $? = 2 ] && [ ! -s out ] || fail "no status 2: tokens $how"
done
for how in "tokens big" "merge --sorted sums.big"; do
  (trap '' XFSZ; ulimit -f 8; exec "$program" $how -o kept) > out 2> err
  [ $? = 4 ] && grep -q '^hashbag_words: kept: ' err && is kept old "an output on a full disk: $how" || fail "no name of a full disk: $how"
  "$program" $how > /dev/full 2> err
  [ $? = 4 ] && grep -q '^hashbag_words: standard output: ' err || fail "a full disk: $how"
  { "$program" $how 2> err; } | head -n 1 > out && [ ! -s err ] || fail "a pipe that nobody reads: $how"
done
# 60 MB of text, and 20 MB of rows of different tokens, in 40 MB of memory with the program
yes 'some words of a line that is repeated' | head -c 60000000 > repeated && (ulimit -v 40000; exec "$program" tokens repeated) | tail -n 1 > found
tail -n 1 repeated | tr ' ' '\n' | tail -n 1 > shown && is found shown "tokens in little memory" && rm repeated
seq 1000000 2999999 | sed 's/$/\t1/' | (ulimit -v 40000; exec "$program" merge --sorted) | tail -n 1 > found && printf '2999999\t1\n' > shown && is found shown "sums in little memory"

# sums of neighbours in one text, which is in the order of sort
printf 'a\t1\na\t2\nb\t3\n' > near && printf 'a\t3\nb\t3\n' > shown && shows shown "sums of neighbours" merge --sorted near && "$program" merge --sorted - < near > found && is found shown "sums of standard input"
printf '[["a",3],["b",3]]\n' > shown && shows shown "sums as JSON" merge --sorted --to json near && printf '      3 a\n      3 b\n' > shown && shows shown "sums as uniq" merge --sorted --to uniq near
printf '[]\n' > shown && shows shown "no sums as JSON" merge --sorted --to json /dev/null && shows /dev/null "no sums" merge --sorted /dev/null
printf 'a\t3\n' > shown && printf 'b\n' > stop && shows shown "sums of others" merge --sorted --except stop near && printf 'a\t2\nb\t3\n' > most && printf 'b\t3\n' > shown && shows shown "the least sum" merge --sorted --least 3 most
printf '\357\273\277a\t0\na\t0\nb\t0\nb\t2\nc\t0\n' > zeros && printf 'b\t2\n' > shown && shows shown "sums of nothing" merge --sorted zeros
seq 100000 299999 | awk '{ print $1 "\t" 2; print $1 "\t2" }' > twice && seq 100000 299999 | awk '{ print $1 "\t" 4 }' > shown && shows shown "sums of many blocks, whose lines go across them" merge --sorted twice
sort -m counts/*.tsv | "$program" merge --sorted > found && is found wanted "files of counts, merged by sort"
for falls in 'b\t1\na\t2\nc\t3\n' 'a\t1\nb\t1\na\t1\n' 'a\\tb\t1\na b\t1\n' 'aa\t1\na\t1\n' 'a\t1\na\001\t1\n' 'b\t1\n\t1\n'; do
  printf "$falls" > falls && n=$(sort -c falls 2>&1 | sed -E 's/^[^:]*: falls:([0-9]+): .*/\1/')
  for how in "" "--skip-bad"; do ends 2 "hashbag_words: falls:$n: not in order" merge --sorted $how falls -o kept && is kept old "an output after a row that falls"; done
  sort falls | "$program" merge --sorted > found && "$program" merge falls | sort > shown && is found shown "sums of rows that were sorted"
done
printf 'a\t1\nb 2\nc\t3\n' > mid && printf 'a\t1\nc\t3\n' > shown
ends 0 "hashbag_words: mid: 1 bad line skipped" merge --sorted --skip-bad mid && is out shown "the rows behind a bad line"
ends 2 "hashbag_words: mid:2: no tab" merge --sorted mid -o kept && is kept old "an output after a bad row"
printf 'a\t1\nb' > cut && ends 2 "hashbag_words: cut:2: no line feed" merge --sorted cut
printf 'a\t1\nb\t18446744073709551615\n' > past && ends 5 "hashbag_words: past:2: total past 2^64-1" merge --sorted past
printf 'a\t1\na\t18446744073709551615\n' > past && ends 5 "hashbag_words: past:2: total past 2^64-1" merge --sorted past
ends 1 "" merge --sorted --fail-empty /dev/null && ends 0 "" merge --sorted --fail-empty near && ends 1 "" merge --sorted --fail-empty --least 4 near
ends 2 'hashbag_words: --sorted: one text; `LC_ALL=C sort -m FILE.. | hashbag_words merge --sorted` merges files' merge --sorted near most
for how in "merge --from json" "less --from json whole" "merge --unsorted" "--unsorted" "--min-length 3" "--memory 1K" "--tmp ." "merge --memory 1K" \
  "merge --sorted --from uniq" "merge --sorted --top 3" "merge --sorted --share" "merge --sorted --bars --top 3" "merge --sorted -r" "merge --sorted --files-from list"; do
  "$program" $how whole > out 2> err < /dev/null
  [ $? = 2 ] && [ ! -s out ] || fail "no status 2: $how"
done
"$program" merge --sorted no_such_file > out 2> err
[ $? = 4 ] && [ ! -s out ] && grep -q '^hashbag_words: no_such_file: ' err || fail "no name of a sorted file"
ends 2 "hashbag_words: near: the output is one of the inputs" merge --sorted near -o near

# bytes that aren't UTF-8, replaced as Python replaces them
python3 - << 'END' || fail "no lines of bytes"
import collections, random
random.seed(7)
some = [b"a", b"\x00", b"\x7f", b"\x80", b"\xa9", b"\xc0", b"\xc3", b"\xe2\x82", b"\xe2\x82\xac", b"\xed\xa0", b"\xf0\x9f\x98", b"\xf0\x9f\x98\x80", b"\xf4\x90", b"\xff"]
lines = [b"".join(random.choices(some, k=random.randint(1, 4))) for _ in range(3000)]
open("bytes", "wb").write(b"".join(line + b"\n" for line in lines))
counts = collections.Counter(line.decode("utf-8", "replace").encode() for line in lines)
open("replaced", "wb").write(b"".join(b"%s\t%d\n" % row for row in sorted(counts.items())))
open("said", "w").write("hashbag_words: bytes: it has NUL bytes; if it is UTF-16, `--encoding UTF-16LE` reads it\n"
    "hashbag_words: bytes: bytes replaced in %d lines\n" % sum(line.decode("utf-8", "replace").encode() != line for line in lines))
END
ends 0 "$(cat said)" --by lines --lossy bytes && is out replaced "bytes that are replaced"
ends 0 "" --lossy text && is out wanted "a text without bytes to replace"
ends 0 "hashbag_words: bad.txt: bytes replaced in 1 line" --lossy --skip-bad bad.txt

# a text is read by blocks: each end of a line, mark and character is at a border of some of them, and some lines are longer than a block
python3 - << 'END' || fail "no text of many blocks"
import collections, random
random.seed(9)
some = ["", "\r", "\ufeff", "\ufeffa", "\u20ac", "a\rb", "\0", "\U0001f600 c", "d" * 70000]
lines = random.choices(some, [9] * 8 + [0.01], k=500000) + ["last\r"]
open("blocks", "w", newline="").write("".join(line + random.choice(["\n", "\r\n"]) for line in lines[:-1]) + lines[-1])
text = open("blocks", newline="").read().split("\n")
found = collections.Counter((line[:-1] if line.endswith("\r") and i < len(text) - 1 else line).removeprefix("\ufeff") for i, line in enumerate(text))
rows = sorted((line.replace("\r", "\\r").encode(), n, line.encode()) for line, n in found.items())
open("shown", "wb").writelines(b"%s\t%d\n" % (row[0], row[1]) for row in sorted(rows, key=lambda row: row[2]))
END
shows shown "lines across blocks" --by lines blocks && cat blocks | "$program" --by lines > found && is found shown "lines across the reads of a pipe"

# fields: between blanks as awk finds them, and between characters as Python does
printf '  b\ta \303\244\303\266 \ncd e\n\n \t\nb\tb  \303\244\303\266\tb\nb\302\240a\n' > fields
printf ',x,\n\nx y,x\na,,b\n,\n' > commas && tr ',' '\t' < commas > tabs
for n in 1 2 3 4 9; do
  awk -v n=$n 'NF >= n { print $n }' fields | sort | uniq -c > shown
  shows shown "field $n" --to uniq --field $n fields
  python3 -c 'import sys; print(*[it[int(sys.argv[1])] for it in (line.split(",") for line in open("commas").read().splitlines()) if len(it) > int(sys.argv[1])], sep="\n")' $((n - 1)) |
    if [ $n -lt 4 ]; then sort | uniq -c; else cat > /dev/null; fi > shown
  shows shown "field $n between commas" --to uniq --field $n --delimiter , commas
  shows shown "field $n between tabs" --to uniq --field $n --delimiter '\t' tabs
done
"$program" --field 1 --delimiter '	' tabs > shown && shows shown "a tab as it is" --field 1 --delimiter '\t' tabs
printf 'a B\na b\n' > fields && printf 'b\t2\n' > shown && shows shown "fields, folded" --fold --field 2 fields
awk '{ print $5 }' text | sort | uniq -c > shown && shows shown "the fifth field" --to uniq --field 5 text
ends 2 "hashbag_words: --field: 0: the first field is 1" --field 0 -o none/out none
for delimiter in '' ',,' é '\n' '\t\t' tabs; do
  ends 2 "hashbag_words: --delimiter: $delimiter: neither one ASCII character nor tab" --field 1 --delimiter "$delimiter" -o none/out none
done
for how in "--field x" "--field -1" "--field 1 --by lines" "--field 1 --pattern a" "--delimiter ," "--delimiter , --by lines" "--delimiter , --pattern a" "merge --field 1"; do
  "$program" $how text > out 2> err
  [ $? = 2 ] && [ ! -s out ] || fail "no status 2: $how"
done

# columns of CSV: quoted fields have line feeds, quotes and delimiters; each file has its own header
printf '\357\273\277id,city,note\n1,Ulm,"a\nb"\r\n2,"Ulm, alt",""\n\n3,,x\n4,"Ulm","city"\n5,"say ""hi""",\n6,"two\nlines",z' > people.csv
printf 'city,x\nulm,1\nULM,2\nBonn,3\n' > more.csv
printf '\t1\nUlm\t2\nUlm, alt\t1\nsay "hi"\t1\ntwo\\nlines\t1\n' > shown && shows shown "a column" --column city people.csv
printf 'Bonn\t1\nULM\t1\nulm\t1\n' > shown && "$program" --column city < more.csv > found && is found shown "a column of standard input"
printf '\t1\nbonn\t1\nsay "hi"\t1\ntwo\\nlines\t1\nulm\t4\nulm, alt\t1\n' > shown && shows shown "a column of two files, folded" --fold --column city people.csv more.csv
printf 'ulm\t4\t44.44\n' > shown && shows shown "the share of a column" --fold --column city --top 1 --share people.csv more.csv
printf 'ulm 2 %034d\n' 0 | tr 0 '#' > shown && COLUMNS=40 "$program" --fold --column city --top 1 --bars more.csv > found && is found shown "a bar of a column"
printf 'Bonn\n' > except.txt && printf '[["",1],["say \\"hi\\"",1],["two\\nlines",1],["ulm",4],["ulm, alt",1]]\n' > shown
shows shown "what is shown of a column" --fold --column city --except except.txt --to json people.csv more.csv
printf 'city;id\nULM;7\nBonn, 2;8\n' > others.csv && printf 'Bonn, 2\t1\nULM\t1\n' > shown && shows shown "a column between semicolons" --column city --delimiter ';' others.csv
printf 'city\tid\nULM\t7\n"Bonn\t2"\t8\n' > tabbed && printf 'Bonn\\t2\t1\nULM\t1\n' > shown && shows shown "a column between tabs" --column city -d '\t' tabbed
printf 'a,b\n\334,1\n' > latin.csv && printf '1\t1\n' > shown && shows shown "a column next to one that isn't UTF-8" --column b latin.csv
printf '\303\234\t1\n' > shown && shows shown "a column in Windows-1252" --column a --encoding Windows-1252 latin.csv
printf 'a,b\n' > header.csv && shows /dev/null "a header alone" --column a header.csv
ends 2 'hashbag_words: latin.csv:2: column `a` is not UTF-8; if it is Windows-1252, `--encoding Windows-1252`' --column a header.csv latin.csv
ends 2 'hashbag_words: people.csv:1: no column `town`; there are: `id`, `city`, `note`' --column town people.csv
ends 2 'hashbag_words: others.csv:1: no column `city`; there are: `city;id`; is the delimiter `;`?' --column city others.csv
ends 2 "hashbag_words: standard input:1: no header" --column a
for bad in '1,2\n1,2,3\n:3: 2 fields wanted, 3 found' '1\n:2: 2 fields wanted, 1 found' '1,"2"x\n:2: text after a closing quote' '1,x"y\n:2: quote in a field without quotes' '1,2\n3,"4\n5\n:3: quote never closed'; do
  printf "a,b\n${bad%%:*}" > bad.csv
  cp whole held && ends 2 "hashbag_words: bad.csv:${bad#*:}" --column a -o held bad.csv && is held whole "an output after a bad record"
done
printf 'a,a\n1,2\n' > bad.csv && ends 2 'hashbag_words: bad.csv:1: more than one column `a`' --column a bad.csv
for how in "--lossy" "--skip-bad" "--by lines" "--field 1" "--pattern a"; do
  "$program" --column a $how -o none/out none > out 2> err
  [ $? = 2 ] && [ ! -s out ] && grep -q "cannot be used with" err || fail "no status 2: --column a $how"
done
ends 2 "hashbag_words: --delimiter: |: none of , ; and tab, as --column needs" --column a --delimiter '|' -o none/out none

# shares of all occurrences, whatever is shown: by exact decimals of Python, half up
python3 - << 'END' || fail "no shares"
from decimal import ROUND_HALF_UP, Decimal

rows = [line.rstrip("\n").split("\t") for line in open("wanted")]
total = sum(int(count) for _, count in rows)
with open("shares", "w") as file:
    for token, count in rows:
        print(token, count, (Decimal(100 * int(count)) / total).quantize(Decimal("0.01"), ROUND_HALF_UP), sep="\t", file=file)
END
grep -v '^w1	' shares > others && sort -t "$(printf '\t')" -k2,2nr -k1,1 shares | head -n 5 > top && printf 'w1\n' > stop
shows shares "shares" --share text && shows top "shares of the most common" --share --top 5 text && shows others "shares of the others" --share --except stop text
shows shares "shares of counts" merge --share whole && shows top "shares of the most common counts" merge --share --top 5 whole
shows shares "shares of counts in parts" merge --share counts/*.tsv
for part in 1 2 3; do "$program" --share --shard $part/3 text; done | sort > found && is found shares "shares of shards"
shows shares "shares of a difference" less --share whole /dev/null && shows shares "shares of lesser counts" common --share whole whole
printf 'a\t18446744073709551614\nb\t1\n' > greatest && printf 'a\t18446744073709551614\t100.00\nb\t1\t0.00\n' > shown
shows shown "shares of a total that is as large as may be" merge --share greatest
shows /dev/null "shares of nothing" --share /dev/null
for form in json uniq; do ends 2 "hashbag_words: --share: $form has no column for it; leave out --to $form" --share --to $form -o none/out none; done
ends 2 "hashbag_words: shares:1: no count" merge shares

# bars: of the columns of a terminal, names have those of the widest, but at most a third; counts the digits of the greatest; the longest bar the rest. Python
# has the widths of characters
cat > bars.py << 'END'
import sys
import unicodedata


def columns_of(c):
    if unicodedata.category(c) in ("Mn", "Me", "Cf"):
        return 0
    return 2 if unicodedata.east_asian_width(c) in "WF" else 1


def columns(name):
    return sum(map(columns_of, name))


def cut(name, n):
    if columns(name) <= n:
        return name
    while columns(name) > n - 1:
        name = name[:-1]
    return name + "…"


width, top = int(sys.argv[1]), int(sys.argv[2])
rows = [line.rstrip("\n").split("\t") for line in open(sys.argv[3], encoding="utf-8")]
rows = sorted(((token, int(count)) for token, count in rows), key=lambda row: (-row[1], row[0].encode()))[:top]
names = min(width // 3, max(columns(token) for token, _ in rows))
greatest = rows[0][1]
room = width - names - len(str(greatest)) - 2
for token, count in rows:
    name = cut(token, names)
    marks = max(1, (2 * room * count + greatest) // (2 * greatest))
    print(name + " " * (names - columns(name)), f"{count:{len(str(greatest))}}", "#" * marks)
END
unset COLUMNS
for width in 80 40 41 132 1000; do
  python3 bars.py $width 700 wanted > bars || fail "no bars"
  [ "$(awk '{ if (length > most) most = length } END { print most }' bars)" = $width ] || fail "a longest bar that isn't at the edge: $width"
  for how in "" "--fold"; do COLUMNS=$width shows bars "bars in $width columns: $how" $how --bars --top 700 text; done
  COLUMNS=$width shows bars "bars of counts in $width columns" merge --bars --top 700 whole
done
python3 bars.py 80 3 wanted > bars
for columns in "" x -1 " 90" 1e2 99999999999999999999; do COLUMNS=$columns shows bars "bars in $columns columns" --bars --top 3 text; done
shows bars "bars on no terminal" --bars --top 3 text
shows bars "bars of a difference" less --bars --top 3 whole /dev/null && shows bars "bars of lesser counts" common --bars --top 3 whole whole
python3 bars.py 40 3 wanted > bars && COLUMNS=1 shows bars "bars in 1 column" --bars --top 3 text
python3 bars.py 1000 3 wanted > bars && COLUMNS=70000 shows bars "bars in 70,000 columns" --bars --top 3 text
# one of 1, 3 and 1000; a greatest count of 20 digits; wide and narrow characters, and such as are cut
printf 'a\t1000\nb\t333\nc\t1\nd\t2\n' > few && python3 bars.py 80 9 few > bars && shows bars "bars of few counts" merge --bars --top 9 few
printf 'a\t18446744073709551614\nb\t1\n' > greatest && python3 bars.py 80 9 greatest > bars
shows bars "bars of a total that is as large as may be" merge --bars --top 9 greatest
printf '猫\t9\nä\t8\nsämtliche\t7\n猫猫猫猫猫猫猫猫猫猫猫猫猫猫猫\t6\nabcdefghijklmnopqrstuvwxyzab\t5\nabcdefghijklmnopqrstuvwxyz\t4\nabcdefghijklmnopqrstuvwxyza\t3\na猫猫猫猫猫猫猫猫猫猫猫猫猫猫猫\t2\ne\314\201\t1\n' > wide
for width in 80 60 40; do python3 bars.py $width 9 wide > bars && COLUMNS=$width shows bars "bars of wide tokens in $width columns" merge --bars --top 9 wide; done
printf '\ta\n\ta\n\033[31mb\n\n' | COLUMNS=40 "$program" --by lines --bars --top 9 > found
{ printf '␉a     2 %s\n' "$(printf '#%.0s' {1..31})" && printf '       1 %s\n' "$(printf '#%.0s' {1..16})" && printf '�[31mb 1 %s\n' "$(printf '#%.0s' {1..16})"; } > bars
is found bars "bars of lines with control characters"
printf 'The cat sat on the mat.\nThe dog didn'"'"'t: the dog lay.\n' > monday && printf 'the 4 %s\ndog 2 %s\ncat 1 %s\n' "$(printf '#%.0s' {1..34})" "$(printf '#%.0s' {1..17})" "$(printf '#%.0s' {1..9})" > bars
COLUMNS=40 shows bars "the bars of the page" --fold --top 3 --bars monday
shows /dev/null "bars of nothing" --bars --top 9 /dev/null && shows /dev/null "no bars" --bars --top 0 text
ends 1 "" --fail-empty --bars --top 0 parts/aa && ends 1 "" --fail-empty --bars --top 9 /dev/null
for form in json uniq; do ends 2 "hashbag_words: --bars: $form has no column for it; leave out --to $form" --bars --top 3 --to $form -o none/out none; done
for how in "--bars" "--bars --share --top 3"; do
  "$program" $how none > out 2> err
  [ $? = 2 ] && [ ! -s out ] || fail "no status 2: $how"
done

# tokens that aren't shown, in each job: the lines of a file, of which no other one is shown more or less often
printf 'w1\n\nw22\r\nw333\nw4444\nw5 \nW6' > stop && awk '$1 != "w1" && $1 != "w22" && $1 != "w333"' wanted > others
for how in "" "--fold"; do
  if [ "$how" = --fold ]; then grep -v '^w6	' others; else cat others; fi > shown && shows shown "other tokens: $how" $how --except stop text
  sort -t "$(printf '\t')" -k2,2nr -k1,1 shown | head -n 5 > top && shows top "the most common of the others: $how" $how --top 5 --except stop text
done
for how in "" "--sorted"; do shows others "merged: other tokens: $how" merge $how --except stop whole; done
sort -t "$(printf '\t')" -k2,2nr -k1,1 others | head -n 5 > top && shows top "merged: the most common of the others" merge --top 5 --except stop whole
shows others "the counts of other tokens, less none" less --except stop whole /dev/null
shows others "the lesser counts of other tokens" common --except stop whole whole
"$program" --except - text < stop > found && is found others "other tokens than those of standard input"
printf 'STRASSE\nnot\n' > stop && printf 'Straße\nNot\nno\n\n' > words && printf '\t1\nno\t1\n' > shown && shows shown "other tokens, folded" --by lines --fold --except stop words
printf 'no\n\n' > stop && printf 'Not\t1\nStraße\t1\n' > shown && shows shown "other tokens than the empty one" --by lines --except stop words
cp words same && ends 1 "" --fail-empty --by lines --except same words
# that file is read before all others, and is none of them
cp stop linked && ln -f linked hard && for name in stop ./stop "$PWD/stop"; do
  ends 2 "hashbag_words: --except: $name: it is one of the inputs" --except "$name" text stop
  ends 2 "hashbag_words: --except: $name: it is the output" --except "$name" -o stop text
done
ends 2 "hashbag_words: --except: hard: it is one of the inputs" merge --except hard whole linked
ends 2 "hashbag_words: --except: stop: it is one of the inputs" less --except stop whole stop
"$program" --except stop - < stop > out 2> err
[ $? = 2 ] && [ "$(cat err)" = "hashbag_words: --except: stop: it is one of the inputs" ] || fail "tokens that are standard input, too"
for how in "--except - -" "--except - --files-from -" "common --except - - whole"; do ends 2 "hashbag_words: standard input is named twice" $how; done
printf 'a\nb\377\n' > bad.txt
for how in "" "--lossy" "--skip-bad" "merge" "merge --sorted"; do
  ends 2 "hashbag_words: bad.txt:2: $not_utf8_counts" $how --except bad.txt none -o kept && is kept old "an output after a bad line of --except"
done
ends 2 "hashbag_words: packed.gz: gzip; \`zcat\` makes it text" --except packed.gz none
"$program" --except no_such_file none > out 2> err
[ $? = 4 ] && [ ! -s out ] && grep -q '^hashbag_words: no_such_file: ' err || fail "no name of a file of tokens"

# shards: each token is in one of them, by FNV-1a
python3 - << 'END' || fail "no shards"
def shard(token, parts):
    h = 0xcbf29ce484222325
    for byte in token:
        h = (h ^ byte) * 0x100000001b3 % 2**64
    return h % parts
rows = open("big.tsv", "rb").read().splitlines(True)
for parts in (1, 3, 8):
    for i in range(parts):
        open("shard.%d.%d" % (i + 1, parts), "wb").writelines(row for row in rows if shard(row.split(b"\t")[0], parts) == i)
END
for shard in 1.1 1.3 2.3 3.3 1.8 5.8 8.8; do
  [ -s shard.$shard ] || fail "an empty shard: $shard"
  shows shard.$shard "shard $shard" big --shard "${shard/./\/}"
  for how in "" "--sorted"; do shows shard.$shard "merged: shard $shard: $how" merge $how --shard "${shard/./\/}" big.tsv; done
done
sort -t "$(printf '\t')" -k2,2nr -k1,1 shard.2.3 | head -n 5 > shown && shows shown "the most common of a shard" big --top 5 --shard 2/3
for shard in 0/3 4/3 1 1/ /1 a/b 1/0 -1/2 1/2/3 ' 1/3' '1/ 3' '1/3 '; do ends 2 "hashbag_words: --shard: $shard: not I/N with I from 1 to N" "--shard=$shard" big; done
# no file is opened before all words have a meaning
ends 2 "hashbag_words: --shard: 0/3: not I/N with I from 1 to N" --shard 0/3 -o none/out none

# a list of names that isn't UTF-8
iconv -t UTF-16 text > wide.txt && ends 2 'hashbag_words: wide.txt: not UTF-8; `iconv -f ENCODING` converts it' --files-from wide.txt
printf 'a\t1\n\377\t1\n' > latin.tsv && ends 2 "hashbag_words: latin.tsv:2: $not_utf8_counts" merge latin.tsv && rm latin.tsv

# cures fit the input: counts and tokens that aren't shown have no --encoding; a list of names has --null; a name that isn't there may be a job
iconv -t UTF-16 text > wide.txt
for words in "merge wide.txt" "--except wide.txt text" "--encoding UTF-16 --except wide.txt text"; do
  ends 2 "hashbag_words: wide.txt: UTF-16; \`iconv -f UTF-16\` reads it" $words
done
printf 'whole\0text\0' > list && ends 2 "hashbag_words: list: a name has a NUL byte; \`--null\` reads names that end in one" merge --files-from list
for words in "--null" "--null text"; do
  "$program" $words > out 2> err < text
  [ $? = 2 ] && [ ! -s out ] && grep -q -e --null -e --files-from err || fail "names aren't read: $words"
done
ends 4 "hashbag_words: mrege: No such file or directory (os error 2); is it the job \`merge\`?" mrege whole
ends 4 "hashbag_words: emu: No such file or directory (os error 2)" emu whole

{ printf '\357\273\277'; cat text; } > marked
for name in Latin-1 windows-1252; do ends 2 "hashbag_words: marked: UTF-8, by its byte order mark; \`--encoding UTF-8\` reads it" --encoding $name marked; done

# names in another case, a delimiter by its name, and an output behind other text in one file
shows whole "an encoding in another case" --encoding utf-16 wide.txt
printf 'a\tb c\nd\tb c\n' > tabs && printf 'b c\t2\n' > wanted && shows wanted "a delimiter by its name" --field 2 --delimiter tab tabs
(echo before && "$program" -o /dev/stdout text && echo after) > both && (echo before && cat whole && echo after) > wanted && is both wanted "an output behind other text"

# 200,000 words that have one hash under fixed keys: a state with those keys would take minutes
seq -f 'tffjdgbfaeakkksgP{_!uf:~%08.0f' 0 199999 > flood
timeout 20 "$program" flood > found && sed 's/$/\t1/' flood > shown && is found shown "words that flood a table under fixed keys"
echo "words: ok"
