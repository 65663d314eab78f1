#!/usr/bin/env bash
# bash tests/programs/ledger.sh [PROGRAM]: runs the program `hashbag_ledger` on files, and compares what it writes, what it leaves unchanged, and its
# status with values found by hand. The program is proved and compiled first, unless it is named. The last line is 'ledger: ok' or says
# what is wrong.
. "$(dirname "$0")/lib.sh"
begin hashbag_ledger "$@"

stock='article,number\nbolt,10\nnut,4\n'
printf "$stock" > cur.csv
printf 'article,change\nbolt,-3\n"5"" tube",2\n' > mv.csv
printf 'article,change\nnut,-5\nbolt,-1\n' > much.csv
printf 'article,change\nbolt,-1\nnut,x\n' > bad.csv

# The balance takes the place of the stock, once all is entered.
ends 0 "" total --start cur.csv mv.csv -o cur.csv
has ../out "" "a balance on standard output beside -o"
has cur.csv 'article,number\n"5"" tube",2\nbolt,7\nnut,4\n' "the balance in the place of the stock"
printf "$stock" > cur.csv
ends 1 'much.csv:2: refused: out 5 of "nut", 4 there' total --start cur.csv much.csv --output new.csv
has new.csv 'article,number\nbolt,9\nnut,4\n' "a balance in a new file"
rm new.csv

# A run that ends with an error, or strictly, leaves the old file, and no other.
ends 2 'hashbag_ledger: bad.csv:3: no number: `x`' total --start cur.csv bad.csv -o cur.csv
ends 1 'much.csv:2: refused: out 5 of "nut", 4 there' total --strict --start cur.csv much.csv -o cur.csv
has cur.csv "$stock" "the old file after an error, or a strict run"
files bad.csv cur.csv much.csv mv.csv
chmod 444 cur.csv && ends 0 "" total --start cur.csv mv.csv && chmod 644 cur.csv
has cur.csv "$stock" "the stock of a run without -o"

# A number 0 ends no list, and a read that fails is no end of a file.
printf 'article,number\nnut,0\nbolt,5\n' > ../zero.csv
ends 0 "" total --start ../zero.csv mv.csv
has ../out 'article,number\n"5"" tube",2\nbolt,2\n' "a stock whose first number is 0"
ends 4 "hashbag_ledger: ..: Is a directory (os error 21)" total ..
ends 4 "hashbag_ledger: ..: Is a directory (os error 21)" total --start .. mv.csv
ends 4 "hashbag_ledger: ..: Is a directory (os error 21)" total --start cur.csv mv.csv .. -o cur.csv
has cur.csv "$stock" "the old file after a read that failed"

# Refusals as CSV
ends 1 "" total --start cur.csv much.csv mv.csv --refused not.csv -o cur.csv
has not.csv 'file,line,article,asked,there\nmuch.csv,2,nut,5,4\n' "refusals in a file"
has cur.csv 'article,number\n"5"" tube",2\nbolt,6\nnut,4\n' "the balance beside refusals in a file"
ends 0 "" total --start cur.csv mv.csv --refused not.csv
has not.csv 'file,line,article,asked,there\n' "no refusals in a file"
rm not.csv
printf "$stock" > cur.csv

# An output that is an input, however it is named
said='both an input and an output, or two outputs'
ln -s mv.csv link.csv
for name in mv.csv ./mv.csv link.csv; do
  ends 2 "hashbag_ledger: $name: $said" total --start cur.csv mv.csv -o $name
  ends 2 "hashbag_ledger: $name: $said" total --start cur.csv mv.csv --refused $name
done
"$program" total - -o mv.csv < mv.csv > ../out 2> ../err
[ $? = 2 ] || fail "-o is what standard input reads"
ends 2 "hashbag_ledger: cur.csv: $said" total --start cur.csv mv.csv --refused cur.csv
ends 2 "hashbag_ledger: new.csv: $said" total mv.csv --refused new.csv -o new.csv
has mv.csv 'article,change\nbolt,-3\n"5"" tube",2\n' "an input that isn't written"
rm link.csv
files bad.csv cur.csv much.csv mv.csv

# Statuses
ends 4 "hashbag_ledger: no/new.csv: No such file or directory (os error 2)" total mv.csv -o no/new.csv
ends 4 "hashbag_ledger: /dev/full: No space left on device (os error 28)" total much.csv -o /dev/full --refused ../not.csv
ends 4 "hashbag_ledger: none.csv: No such file or directory (os error 2)" total none.csv -o new.csv
printf 'article,change\nbolt,18446744073709551615\n' > ../many.csv
ends 5 "hashbag_ledger: ../many.csv:2: total past 18446744073709551615" total --start cur.csv ../many.csv -o new.csv
files bad.csv cur.csv much.csv mv.csv
"$program" total --start cur.csv mv.csv > /dev/full 2> ../err
[ $? = 4 ] || fail "a full disk at standard output"
ends 2 "hashbag_ledger: --start-columns takes two names: a" total --start-columns a
"$program" total --start cur.csv much.csv > ../out 2> /dev/full
[ $? = 4 ] || fail "a full disk at standard error"
ends 4 "hashbag_ledger: /dev/full: No space left on device (os error 28)" total much.csv -o new.csv --refused /dev/full
files bad.csv cur.csv much.csv mv.csv
for words in "--scale 10" "--mark ;" "--delimiter ;;" "--columns a" "--columns a,b,c,d" "--start-columns a,b,c" "--start" "--wrong"; do
  # shellcheck disable=SC2086
  "$program" total $words mv.csv > ../out 2> ../err
  [ $? = 2 ] && [ ! -s ../out ] && [ -s ../err ] || fail "bad arguments: $words"
done
for word in --version -V; do
  ends 0 "" $word
  grep -Eqx 'hashbag_ledger 0\.1\.13-[0-9]+' ../out || fail "the version"
done
for word in --help -h help; do
  ends 0 "" $word
  for name in total enter close --db; do
    grep -q -e "$name" ../out || fail "no $name in the help"
  done
done
for words in "total --help" "total -h" "help total"; do
  # shellcheck disable=SC2086
  ends 0 "" $words
  for name in --start --start-columns --columns --scale --mark --delimiter --output --refused --strict MOVES.csv; do
    grep -q -e "$name" ../out || fail "no $name in the help of total"
  done
done

# A first word that is no subcommand, or none: the message has the usages
for words in "" mv.csv ./mv.csv - total.csv enter.csv counted.csv "--start cur.csv mv.csv" "-o new.csv mv.csv" "--strict total mv.csv" "--db s.db mv.csv"; do
  # shellcheck disable=SC2086
  "$program" $words > ../out 2> ../err < /dev/null
  [ $? = 2 ] && [ ! -s ../out ] && grep -qFx "Usage: hashbag_ledger total [OPTIONS] [MOVES.csv]..." ../err || { cat ../err; fail "no subcommand: $words"; }
done
files bad.csv cur.csv much.csv mv.csv

# Names for the columns of the stock, which the balance has too
printf 'place,qty,sku\nA,10,bolt\nB,2,bolt\n' > sku.csv
ends 0 "" total --start sku.csv --start-columns sku,qty mv.csv -o sku.csv
has sku.csv 'sku,qty\n"5"" tube",2\nbolt,9\n' "the names of the columns of the stock"
ends 0 "" total --start sku.csv --start-columns sku,qty mv.csv
has ../out 'sku,qty\n"5"" tube",4\nbolt,6\n' "the balance as the stock of the next run"

# Decimals, counted in units of the last one, and another delimiter
printf 'sku;kg\nsalt;1,5\n' > kg.csv
printf 'article;change\nsalt;-0,25\nsalt;-1,26\nrice;10\n' > mvkg.csv
ends 1 'mvkg.csv:3: refused: out 1,26 of "salt", 1,25 there' total --scale 2 --mark , --delimiter ';' --start kg.csv --start-columns sku,kg mvkg.csv -o kg.csv
has kg.csv 'sku;kg\nrice;10,00\nsalt;1,25\n' "a balance with decimals"
ends 1 "" total --scale 2 --mark , --delimiter ';' --start kg.csv --start-columns sku,kg mvkg.csv -o kg.csv --refused not.csv
has not.csv 'file;line;article;asked;there\nmvkg.csv;3;salt;1,26;1,00\n' "refusals with decimals"
ends 2 'hashbag_ledger: mvkg.csv:2: whole numbers only: `-0,25`' total --delimiter ';' mvkg.csv
ends 2 'hashbag_ledger: mvkg.csv:2: more than 1 decimals: `-0,25`' total --scale 1 --mark , --delimiter ';' mvkg.csv

ends 2 'hashbag_ledger: mvkg.csv:2: no number: `-0,25`' total --scale 2 --delimiter ';' mvkg.csv
printf 'article,number\nsalt,1.25\n' > gram.csv
printf 'article,change\nsalt,-0.005\nsalt,-1.246\nrice,"0.5"\n' > mvgram.csv
ends 1 'mvgram.csv:3: refused: out 1.246 of "salt", 1.245 there' total --scale 3 --start gram.csv mvgram.csv
has ../out 'article,number\nrice,0.500\nsalt,1.245\n' "three decimals"
printf 'article,change\nsalt,"1,5"\n' > comma.csv
ends 0 "" total --scale 2 --mark , comma.csv
has ../out 'article,number\nsalt,"1,50"\n' "a comma before decimals and between fields"
printf 'article,change\nbolt,1.5\n' > half.csv
ends 2 'hashbag_ledger: half.csv:2: whole numbers only: `1.5`' total half.csv
printf 'article\tchange\nbolt\t5\n' > tab.csv
ends 0 "" total --delimiter tab tab.csv
has ../out 'article\tnumber\nbolt\t5\n' "tabs between fields"
printf 'article,change\nbolt,184467440737095516.15\nnut,0.01\n' > ../many.csv
ends 5 "hashbag_ledger: ../many.csv:3: total past 184467440737095516.15" total --scale 2 ../many.csv

# Two columns for a change, and standard input
printf 'part,kind,number\nbolt,in,5\nbolt,out,2\n' > kinds.csv
ends 0 "" total --columns part,kind,number kinds.csv
has ../out 'article,number\nbolt,3\n' "changes by their kinds"
"$program" total < mv.csv > ../out 2> ../err
[ $? = 1 ] || fail "movements on standard input"
has ../err '-:2: refused: out 3 of "bolt", 0 there\n' "a refusal of standard input"
has ../out 'article,number\n"5"" tube",2\n' "a balance of standard input"

# An article with quotes and a comma
printf 'article,change\n"5"" tube, long",-3\n' > quotes.csv
ends 1 'quotes.csv:2: refused: out 3 of "5\" tube, long", 0 there' total quotes.csv
ends 1 "" total quotes.csv --refused not.csv
has not.csv 'file,line,article,asked,there\nquotes.csv,2,"5"" tube, long",3,0\n' "an article with quotes and a comma"

# A byte order mark, CRLF and no last line feed
printf '\357\273\277article,change\r\nbolt,5\r\nnut,7\r\nbolt,-2' > crlf.csv
ends 0 "" total crlf.csv
has ../out 'article,number\nbolt,3\nnut,7\n' "a byte order mark, CRLF and no last line feed"

# Behind a subcommand, the name of another is that of a file
cp crlf.csv count
ends 0 "" total count
has ../out 'article,number\nbolt,3\nnut,7\n' "a file with the name of a subcommand"
rm count

# Movements in UTF-16 with a mark, and a stock in Windows-1252
printf 'Größe,5\n' > rest && { printf 'article,change\n'; cat rest; } | iconv -f UTF-8 -t UTF-16 > wide.csv
{ printf 'article,number\n'; cat rest; } | iconv -f UTF-8 -t CP1252 > start.csv
ends 0 "" total --encoding UTF-16 wide.csv
has ../out 'article,number\nGröße,5\n' "movements in UTF-16"
ends 0 "" total --start start.csv --start-encoding Windows-1252 --encoding UTF-16 wide.csv
has ../out 'article,number\nGröße,10\n' "a stock in Windows-1252"
ends 2 'hashbag_ledger: wide.csv:1: UTF-16; `--encoding UTF-16` reads it' total wide.csv
ends 2 "hashbag_ledger: start.csv:1: not UTF-16: no byte order mark; UTF-16LE and UTF-16BE need none" total --encoding UTF-16 start.csv
ends 2 'hashbag_ledger: start.csv:2: column `article` is not UTF-8; if it is Windows-1252, `--start-encoding Windows-1252`' total --start start.csv --encoding UTF-16 wide.csv
ends 2 'hashbag_ledger: start.csv:2: column `article` is not UTF-8; if it is Windows-1252, `--encoding Windows-1252`' total --columns article,number start.csv
ends 2 'hashbag_ledger: wide.csv:1: UTF-16; `--start-encoding UTF-16` reads it' total --start wide.csv --encoding UTF-16 wide.csv

# A quote that is never closed: the line is that of the quote
printf 'article,change,note\nbolt,5,\nnut,7,"12 inch\nbolt,-2,\n' > open.csv
ends 2 "hashbag_ledger: open.csv:3: quote never closed" total open.csv
ends 2 "hashbag_ledger: open.csv:3: quote never closed" total open.csv -o cur.csv
has cur.csv "$stock" "the old file after an open quote"
printf 'article,change,note\n"12\ninch",5,"open\nbolt,1,\n' > open.csv
ends 2 "hashbag_ledger: open.csv:3: quote never closed" total open.csv

# The stages of work in a database: each is a line with --progress, and none is with --quiet, nor in a file
printf 'article,change\nbolt,5\n' > first.csv
printf 'article,number\nbolt,4\n' > counted.csv
# reports TEXT WORD..: the program ends with status 0 on these words and --progress, and reports these stages
reports() {
  local text=$1
  shift
  "$program" "$@" --progress > ../out 2> ../err < /dev/null || { cat ../err; fail "no status 0 with --progress: $*"; }
  [ "$(grep -v -e ' MB' -e ': batch' ../err | tr '\n' '|')" = "$text" ] || { cat ../err; fail "not the stages $text: $*"; }
}
reports 'booking 1 movement|s.db: opening|s.db: reading movements|s.db: writing|' enter --db s.db first.csv
printf 'article,change\nbolt,5\nnut,1\n' > second.csv
reports 's.db: opening|s.db: reading movements|booking 2 movements|s.db: writing|' enter --db s.db second.csv
reports 's.db: opening|s.db: reading movements|booking 1 movement|s.db: writing|' take --db s.db bolt 2
reports 's.db: opening|s.db: reading movements|booking 1 movement|s.db: writing|' count --db ./s.db counted.csv
reports 's.db: opening|s.db: reading movements|booking 1 movement|s.db: writing|' undo --db s.db --last
reports 's.db: opening|s.db: reading movements|booking 6 movements|' verify --db s.db
for job in balance batches "history bolt" "show 1"; do
  # shellcheck disable=SC2086
  reports 's.db: opening|s.db: reading movements|' $job --db s.db
done
reports 's.db: opening|s.db: reading movements|next.db: opening|booking 2 movements|next.db: writing|' close --db s.db --into next.db
for job in balance batches "history bolt" "show 1" verify; do
  # shellcheck disable=SC2086
  ends 0 "" $job --db s.db
  # shellcheck disable=SC2086
  ends 0 "" $job --db s.db --quiet
done
"$program" verify --db s.db --quiet --progress > ../out 2> ../err
[ $? = 2 ] || fail "--progress with --quiet"
# On a terminal short work shows nothing, and 200000 movements show each stage in the place of the one before, which is erased at the end
[ "$(script -qec "'$program' verify --db s.db" /dev/null < /dev/null | tr -d '\r')" = '5 batches, 6 movements, 0 of them refused: the balance and the refusals agree' ] || fail "short work on a terminal"
{ echo article,change; yes bolt,1 | head -n 200000; } > many.csv
shown=$(script -qec "'$program' enter --db s.db many.csv" /dev/null < /dev/null | tr '\r\033' '<>')
[ "${shown#*<>\[Kbooking }" = '200000 movements<>[Ks.db: writing<>[Kmany.csv: batch 6, 200000 movements<' ] || fail "stages on a terminal: $shown"
shown=$(script -qec "'$program' enter --again --quiet --db s.db many.csv" /dev/null < /dev/null | tr '\r\033' '<>')
[ "$shown" = '' ] || fail "stages on a terminal with --quiet: $shown"

echo "ledger: ok"
