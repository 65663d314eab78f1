#!/usr/bin/env bash
# bash tests/programs/stock.sh [PROGRAM]: runs the subcommands of the program `hashbag_ledger` on databases, and compares what it writes, what it
# leaves unchanged, and its status with values found by hand. Python's own module of SQLite reads the databases too, and changes them. The
# pauses of a run that waits are counted by a library that the C compiler `cc` makes. The program is proved and compiled first, unless it is
# named. The last line is 'stock: ok' or says what is wrong.
. "$(dirname "$0")/lib.sh"
. "$(dirname "$0")/databases.sh"
begin hashbag_ledger "$@"

# same FILE SUM WHAT: the file has this checksum
same() {
  [ "$(sha256sum < "$1")" = "$2" ] || fail "$3"
}

p=hashbag_ledger
printf 'article,number\nbolt,10\nnut,40\nwasher,3\n' > stock.csv
printf 'article,change\nbolt,-4\nnut,+20\nbolt,-7\n"screw, long",12\nwasher,-3\nbolt,-6\n' > monday.csv
printf 'article,change\nnut,-61\nbolt,5\n' > tuesday.csv

# A stock at the beginning and a file, each a batch; what is refused is said
ends 1 'monday.csv:4: refused: out 7 of "bolt", 6 there' enter --quiet --db s.db --from stock.csv monday.csv
has ../out '' "enter writes nothing to standard output"
ends 0 '' balance --db s.db
has ../out 'article,number\nnut,60\n"screw, long",12\n' "the balance after the first day"
ends 1 'tuesday.csv:2: refused: out 61 of "nut", 60 there' enter --quiet --db s.db tuesday.csv
ends 0 '' balance --db s.db
has ../out 'article,number\nbolt,5\nnut,60\n"screw, long",12\n' "the balance after the second day"
ends 0 '' balance --quiet --db s.db nut bolt none nut
has ../out 'article,number\nbolt,5\nnone,0\nnut,60\n' "the balance of some articles"
ends 0 '' balance --db s.db -o some.csv --delimiter ';' nut
has some.csv 'article;number\nnut;60\n' "a balance in a file"
ends 0 '' verify --db s.db
has ../out '3 batches, 11 movements, 2 of them refused: the balance and the refusals agree\n' "a stock that agrees"

# The history of an article, and the batches; their times are those of the clock
ends 0 '' history --db s.db bolt
sed -E 's/,20[0-9][0-9]-[0-9][0-9]-[0-9][0-9] [0-9][0-9]:[0-9][0-9]:[0-9][0-9],/,TIME,/' ../out > ../plain
has ../plain 'batch,file,line,time,date,change,outcome,number,note\n1,stock.csv,2,TIME,,10,entered,10,\n2,monday.csv,2,TIME,,-4,entered,6,\n2,monday.csv,4,TIME,,-7,refused,6,\n2,monday.csv,7,TIME,,-6,entered,0,\n3,tuesday.csv,3,TIME,,5,entered,5,\n' "the history of an article"
ends 0 '' history --quiet --db s.db none
has ../out 'batch,file,line,time,date,change,outcome,number,note\n' "the history of an article without movements"
ends 0 '' batches --db s.db
sed -E 's/,20[0-9][0-9]-[0-9][0-9]-[0-9][0-9] [0-9][0-9]:[0-9][0-9]:[0-9][0-9],/,TIME,/' ../out > ../plain
sums=($(sha256sum stock.csv monday.csv tuesday.csv | cut -d ' ' -f 1))
has ../plain "batch,file,sha256,kind,undoes,time,movements,refused\n1,stock.csv,${sums[0]},start,,TIME,3,0\n2,monday.csv,${sums[1]},moves,,TIME,6,1\n3,tuesday.csv,${sums[2]},moves,,TIME,2,1\n" "the batches"
is s.db "select abs(strftime('%%s', 'now') - strftime('%%s', max(time))) < 600 from batch" '1' "the time of a batch"

# Another program reads the same
is s.db 'pragma integrity_check' 'ok' "integrity_check"
is s.db 'select article, number from article order by article' 'bolt|5\nnut|60\nscrew, long|12' "the balance by Python's SQLite"
is s.db 'select name, value from meta order by name' 'columns|article,change\ndelimiter|,\nhashbag_ledger|3\nmark|.\nscale|0' "the table meta"
is s.db 'select movement, there from refusal order by movement' '6|6\n10|60' "the refusals by Python's SQLite"
is s.db 'select batch, sum(change), count(*) from movement where movement not in (select movement from refusal) group by batch' '1|53|3\n2|19|5\n3|5|1' "the movements by Python's SQLite"

# Files in other encodings: the sum is that of their bytes, so the same movements in UTF-8 are another file
printf 'article,change\nGröße,3\n' > moves.utf8 && printf 'article,number\nGröße,4\n' | iconv -f UTF-8 -t CP1252 > start.csv
iconv -f UTF-8 -t UTF-16 moves.utf8 > wide.csv
ends 0 '' enter --quiet --db e.db --from start.csv --start-encoding Windows-1252 --encoding UTF-16 wide.csv
ends 6 "$p: wide.csv: entered before, as batch 2 (wide.csv); \`--again\` takes it once more" enter --quiet --db e.db --encoding UTF-16 wide.csv
ends 0 '' enter --quiet --db e.db moves.utf8
ends 2 "$p: moves.utf8:1: not UTF-16: no byte order mark; UTF-16LE and UTF-16BE need none" enter --quiet --again --db e.db --encoding UTF-16 moves.utf8
ends 0 '' balance --db e.db
has ../out 'article,number\nGröße,10\n' "files in three encodings"
sums=($(sha256sum start.csv wide.csv moves.utf8 | cut -d ' ' -f 1))
is e.db 'select sha256 from batch order by batch' "${sums[0]}\n${sums[1]}\n${sums[2]}" "the sums of files in three encodings"
ends 0 '' take --quiet --db e.db Größe 1
ends 2 "$p: start.csv:2: column \`article\` is not UTF-8; if it is Windows-1252, \`--start-encoding Windows-1252\`" enter --quiet --db none.db --from start.csv
ends 2 "$p: wide.csv:1: UTF-16; \`--start-encoding UTF-16\` reads it" enter --quiet --db none.db --from wide.csv moves.utf8
ends 2 "$p: wide.csv:1: UTF-16; \`--encoding UTF-16\` reads it" enter --quiet --db none.db wide.csv

# What was counted, in another encoding
printf 'article,number\nGröße,7\n' > counted.utf8 && iconv -f UTF-8 -t UTF-16 counted.utf8 > counted.wide
ends 2 "$p: counted.wide:1: UTF-16; \`--encoding UTF-16\` reads it" count --db e.db counted.wide
ends 2 "$p: start.csv:2: column \`article\` is not UTF-8; if it is Windows-1252, \`--encoding Windows-1252\`" count --db e.db --again start.csv
ends 0 'counted.wide: batch 5, 1 movement' count --db e.db --encoding UTF-16 counted.wide
has ../out 'article,there,counted,change\nGröße,9,7,-2\n' "a count in UTF-16"
is e.db 'select sha256 from batch where batch = 5' "$(sha256sum < counted.wide | cut -d ' ' -f 1)" "the sum of a count in UTF-16"
ends 0 'start.csv: batch 6, 1 movement' count --db e.db --again --encoding Windows-1252 start.csv
has ../out 'article,there,counted,change\nGröße,7,4,-3\n' "a count in Windows-1252"
ends 2 "$p: counted.utf8:1: not UTF-16: no byte order mark; UTF-16LE and UTF-16BE need none" count --db e.db --encoding UTF-16 counted.utf8
ends 0 '' verify --db e.db

# Once: a file whose bytes were entered before is rejected, under another name too, and nothing else is entered
cp monday.csv again.csv
printf 'article,change\nbolt,1\n' > more.csv
ends 6 "$p: again.csv: entered before, as batch 2 (monday.csv); \`--again\` takes it once more" enter --quiet --db s.db more.csv again.csv
cp more.csv twice.csv
ends 6 "$p: twice.csv: the same bytes as more.csv" enter --quiet --db s.db more.csv twice.csv
ends 0 '' balance --db s.db bolt
has ../out 'article,number\nbolt,5\n' "the balance after a file that was entered before"
ends 1 "$(printf 'again.csv:4: refused: out 7 of "bolt", 1 there\nagain.csv:6: refused: out 3 of "washer", 0 there\nagain.csv:7: refused: out 6 of "bolt", 1 there')" enter --quiet --db s.db --again again.csv
ends 0 '' balance --db s.db
has ../out 'article,number\nbolt,1\nnut,80\n"screw, long",24\n' "the balance after --again"

# Strictly nothing is entered; refusals as CSV; standard input
printf 'article,change\nbolt,1\nnut,-99\n' > much.csv
ends 1 'much.csv:3: refused: out 99 of "nut", 80 there' enter --quiet --db s.db --strict much.csv
ends 0 '' balance --db s.db bolt
has ../out 'article,number\nbolt,1\n' "the balance after a strict run"
ends 1 '' enter --quiet --db s.db --refused not.csv much.csv
has not.csv 'file,line,article,asked,there\nmuch.csv,3,nut,99,80\n' "refusals in a file"
printf 'article,change\nbolt,3\n' | "$program" enter --quiet --db s.db > ../out 2> ../err || fail "standard input"
is s.db 'select batch, file, movements, refused from batch where batch > 4 order by batch' '5|much.csv|2|1\n6|-|1|0' "the batches of a file and of standard input"
ends 0 '' balance --db s.db bolt
has ../out 'article,number\nbolt,5\n' "the balance after standard input"
ends 0 '' verify --db s.db

# What is wrong with an input is said before anything is entered, and before a database is made
printf 'article,change\nbolt,1\nnut,x\n' > bad.csv
printf 'article,change\nbolt,1\n\n' > good.csv
ends 2 "$p: bad.csv:3: no number: \`x\`" enter --quiet --db s.db good.csv bad.csv
ends 2 "$p: bad.csv:3: no number: \`x\`" enter --quiet --db none.db good.csv bad.csv
ends 4 "$p: none.csv: No such file or directory (os error 2)" enter --quiet --db none.db none.csv
ends 2 "$p: ./s.db: both an input and an output, or two outputs" enter --quiet --db s.db ./s.db
ends 2 "$p: stock.csv: both an input and an output, or two outputs" enter --quiet --db none.db --from stock.csv --refused stock.csv
ends 2 "$p: s.db-journal: both an input and an output, or two outputs" enter --quiet --db s.db --refused s.db-journal more.csv
ends 2 "$p: s.db-wal: both an input and an output, or two outputs" balance --db s.db -o s.db-wal
ends 2 "$p: ./s.db: both an input and an output, or two outputs" batches --db s.db -o ./s.db
ends 2 "$p: s.db-shm: both an input and an output, or two outputs" close --db s.db --into s.db-shm
printf 'article,change\nbolt,9223372036854775808\nnut,x\n' > past_first.csv
ends 2 "$p: past_first.csv:2: number past 9223372036854775807: \`9223372036854775808\`" enter --quiet --db none.db past_first.csv
printf 'article,change\nbolt,18446744073709551616\n' > past_all.csv
ends 2 "$p: past_all.csv:2: number past 9223372036854775807: \`18446744073709551616\`" enter --quiet --db none.db past_all.csv
printf 'article,change\nbolt,9223372036854775808\n' > past.csv
ends 2 "$p: past.csv:2: number past 9223372036854775807: \`9223372036854775808\`" enter --quiet --db none.db past.csv
printf 'article,change\nbolt,9223372036854775807\nnut,1\n' > total.csv
ends 5 "$p: total.csv:3: total past 9223372036854775807" enter --quiet --db none.db total.csv
ends 1 'much.csv:3: refused: out 99 of "nut", 0 there' enter --quiet --db none.db --strict much.csv
[ ! -e none.db ] || fail "a database is made although nothing is entered"
ends 0 '' balance --db s.db bolt
has ../out 'article,number\nbolt,5\n' "the balance after bad inputs"
printf 'article,number\nbolt,-1\n' > minus.csv
ends 2 "$p: minus.csv:2: no number: \`-1\`" enter --quiet --db none.db --from minus.csv
printf 'article,change\nbolt,9223372036854775807\nbolt,-9223372036854775807\nnut,9223372036854775806\n' > most.csv
ends 0 '' enter --quiet --db most.db most.csv
ends 0 '' balance --db most.db
has ../out 'article,number\nnut,9223372036854775806\n' "the greatest numbers"
is most.db 'select change from movement order by movement' '9223372036854775807\n-9223372036854775807\n9223372036854775806' "the greatest numbers in the file"

# Several records on one line, since a lone carriage return ends a record and no line: each movement has its own outcome
printf 'article,change\ra,5\ra,-9\ra,-2\r' > line.csv
ends 1 'line.csv:1: refused: out 9 of "a", 5 there' enter --quiet --db line.db line.csv
is line.db 'select movement, there from refusal' '2|5' "which movement of a line is refused"
ends 0 '' history --db line.db a
cut -d , -f 3,6-8 ../out > ../plain
has ../plain 'line,change,outcome,number\n1,5,entered,5\n1,-9,refused,5\n1,-2,entered,3\n' "the history of a line of three movements"
ends 0 '' verify --db line.db
has ../out '1 batch, 3 movements, 1 of them refused: the balance and the refusals agree\n' "a line of three movements agrees"
ends 0 '' undo --quiet --db line.db 1
is line.db 'select change from movement where batch = 2 order by movement' '2\n-5' "the opposite movements of a line"
ends 0 '' balance --db line.db
has ../out 'article,number\n' "the balance after a line is undone"
ends 0 '' verify --db line.db
printf 'article,change\rb,-1\rb,1\rb,-1\rb,-1\r' > line.csv
ends 1 "$(printf 'line.csv:1: refused: out 1 of "b", 0 there\nline.csv:1: refused: out 1 of "b", 0 there')" enter --quiet --db line.db line.csv
is line.db 'select movement, there from refusal where movement > 5 order by movement' '6|0\n9|0' "the first and the last movement of a line are refused"
ends 0 '' verify --db line.db

# What was entered or undone is said on standard error, each batch on a line, and what isn't there, with a name that is near
printf 'article,change\nbolt,5\nnut,2\n' > a.csv
printf 'article,change\nbolt,-3\nbolt,-9\n' > b.csv
printf 'article,change\n' > sunday.csv
ends 1 "$(printf 'b.csv:3: refused: out 9 of "bolt", 2 there\na.csv: batch 1, 2 movements\nb.csv: batch 2, 2 movements, 1 refused\nsunday.csv: batch 3, 0 movements')" enter --db said.db a.csv b.csv sunday.csv
ends 1 'b.csv:2: refused: out 3 of "bolt", 2 there' enter --db said.db --strict --again b.csv
ends 0 "$p: said.db: none of \"blot\"; is it \"bolt\"?" balance --db said.db nut blot
has ../out 'article,number\nblot,0\nnut,2\n' "the balance of an article that isn't there"
ends 0 "$p: said.db: none of \"washer\"" balance --db said.db washer
ends 0 "$p: said.db: no movement of \"blot\"; is it \"bolt\"?" history --db said.db blot
ends 0 "$p: said.db: no movement of \"washer\"" history --db said.db washer

# Files without movements, and standard input, may be entered again
cp sunday.csv monday2.csv
ends 0 "$(printf 'sunday.csv: batch 4, 0 movements\nmonday2.csv: batch 5, 0 movements')" enter --db said.db sunday.csv monday2.csv
printf 'article,change\nnut,1\n' > ../line
input=../line ends 0 '-: batch 6, 1 movement' enter --db said.db
input=../line ends 0 '-: batch 7, 1 movement' enter --db said.db -
ends 6 "$p: b.csv: entered before, as batch 2 (b.csv); \`--again\` takes it once more" enter --db said.db sunday.csv b.csv

# The last batch is undone, or that of a file; each undo says so
ends 0 '-: batch 8, 1 movement, the opposites of batch 7' undo --db said.db --last
ends 0 '-: batch 9, 1 movement, the opposites of batch 6' undo --db said.db --last
ends 0 'b.csv: batch 10, 1 movement, the opposites of batch 2' undo --db said.db b.csv
ends 1 "$p: said.db: batch 2 was undone by batch 10" undo --db said.db b.csv
ends 1 'b.csv: batch 11, 2 movements, 1 refused' enter --refused refused.csv --db said.db --again b.csv
ends 0 'b.csv: batch 12, 1 movement, the opposites of batch 11' undo --db said.db b.csv
ends 2 "$p: said.db: no batch c.csv" undo --db said.db c.csv

# A file that was entered by another path: the only batch that wasn't undone of a file of that name, unless both names have folders
mkdir near far
printf 'article,change\nbolt,1\n' > near/one.csv
printf 'article,change\nbolt,2\n' > far/one.csv
printf 'article,change\nbolt,4\n' > two.csv
ends 0 './two.csv: batch 1, 1 movement' enter --db named.db ./two.csv
ends 0 './two.csv: batch 2, 1 movement, the opposites of batch 1' undo --db named.db two.csv
ends 2 "$p: named.db: no batch two.csv" undo --db named.db two.csv
ends 0 'near/one.csv: batch 3, 1 movement' enter --db named.db near/one.csv
ends 0 '' show --db named.db one.csv
has ../out 'line,date,article,change,outcome,number,note\n2,,bolt,1,entered,1,\n' "the batch of a file without its folder"
ends 2 "$p: named.db: no batch far/one.csv; is it batch 3 (near/one.csv)?" undo --db named.db far/one.csv
ends 0 'far/one.csv: batch 4, 1 movement' enter --db named.db far/one.csv
ends 2 "$p: named.db: no batch one.csv; is it batch 4 (far/one.csv)?" undo --db named.db one.csv
ends 0 'near/one.csv: batch 5, 1 movement, the opposites of batch 3' undo --db named.db near/one.csv
ends 0 'far/one.csv: batch 6, 1 movement, the opposites of batch 4' undo --db named.db one.csv
ends 2 "$p: named.db: no batch ./one.csv" undo --db named.db ./one.csv
ends 0 '' verify --db named.db
ends 2 "$p: undo takes a batch, by its number or its file, or --last" undo --db said.db
ends 2 "$p: undo takes a batch, by its number or its file, or --last" undo --db said.db --last 2
ends 0 '' verify --db said.db

# The movements of a batch, with the balance after each, on which the batches before it count
ends 1 'monday.csv:4: refused: out 7 of "bolt", 6 there' enter --quiet --db show.db --from stock.csv monday.csv
ends 0 '' enter --quiet --db show.db more.csv
ends 0 '' show --db show.db 2
has ../out 'line,date,article,change,outcome,number,note\n2,,bolt,-4,entered,6,\n3,,nut,20,entered,60,\n4,,bolt,-7,refused,6,\n5,,"screw, long",12,entered,12,\n6,,washer,-3,entered,0,\n7,,bolt,-6,entered,0,\n' "the movements of a batch"
ends 0 '' show --db show.db more.csv
has ../out 'line,date,article,change,outcome,number,note\n2,,bolt,1,entered,1,\n' "the movements of the batch of a file"
ends 0 '' show --db show.db -o shown.csv --delimiter ';' 1
has shown.csv 'line;date;article;change;outcome;number;note\n2;;bolt;10;entered;10;\n3;;nut;40;entered;40;\n4;;washer;3;entered;3;\n' "the movements of a batch in a file"
ends 2 "$p: show.db: no batch 9" show --db show.db 9

# One movement that is typed is a batch, like one on standard input. Only enter makes a database, so a misspelt name makes none
for job in take put; do ends 4 "$p: typed.db: no such file" $job --db typed.db bolt 5; done
[ ! -e typed.db ] || fail "a database of a movement that is typed"
printf 'article,change\nbolt,5\n' > ../line && input=../line ends 0 '-: batch 1, 1 movement' enter --db typed.db
ends 0 '-: batch 2, 1 movement' take --db typed.db bolt 2
ends 1 "$(printf -- '-:2: refused: out 4 of "bolt", 3 there\n-: batch 3, 1 movement, 1 refused')" take --db typed.db bolt 4
ends 0 '-: batch 4, 1 movement' take --db typed.db bolt 2
ends 0 "$(printf -- '-: batch 5, 1 movement\n%s: typed.db: "screw, "long"" is new' "$p")" put --db typed.db 'screw, "long"' 1
ends 0 '' balance --db typed.db
has ../out 'article,number\nbolt,1\n"screw, ""long""",1\n' "the balance after movements that were typed"
typed="; decimals are written after the mark of the database, or of \`--mark\`"
ends 2 "$p: no number: \`-1\`$typed" take --db typed.db bolt -- -1
ends 2 "$p: no number: \`-1\`$typed" put --db typed.db bolt -- -1
ends 2 "$p: whole numbers only: \`1.5\`" put --db typed.db bolt 1.5
is typed.db 'select batch, file, kind, movements, refused from batch order by batch' '1|-|moves|1|0\n2|-|moves|1|0\n3|-|moves|1|1\n4|-|moves|1|0\n5|-|moves|1|0' "the batches of movements that were typed"
# A misspelt article is new, or isn't there: a near one is named. One of which none is left is new again
cp typed.db near.db
ends 0 "$(printf -- '-: batch 6, 1 movement\n%s: near.db: "blot" is new; is it "bolt"?' "$p")" put --db near.db blot 1
ends 0 '-: batch 7, 1 movement' take --db near.db blot 1
ends 0 "$(printf -- '-: batch 8, 1 movement\n%s: near.db: "blot" is new; is it "bolt"?' "$p")" put --db near.db blot 1
ends 0 '' put --quiet --db near.db bolts 1
ends 0 "$(printf -- '-: batch 10, 1 movement\n%s: near.db: "x" is new' "$p")" put --db near.db x 1
ends 1 "$(printf -- '-:2: refused: out 1 of "bolq", 0 there; is it "bolt"?\n-: batch 11, 1 movement, 1 refused')" take --db near.db bolq 1
ends 1 "$(printf -- '-:2: refused: out 9 of "bolt", 1 there\n-: batch 12, 1 movement, 1 refused')" take --db near.db bolt 9
ends 1 '-:2: refused: out 1 of "washer", 0 there' take --quiet --db near.db washer 1
# so is one that was refused once, and in a file each new one whose name is near; a refusal of a file names a near one too
ends 0 "$(printf -- '-: batch 14, 1 movement\n%s: near.db: "bolq" is new; is it "bolt"?' "$p")" put --db near.db bolq 1
printf 'article,change\nscrew,3\nbotl,5\nbotl,2\nboltt,-1\nnut,1\n' > spelt.csv
ends 1 "$(printf 'spelt.csv:5: refused: out 1 of "boltt", 0 there; is it "bolt"?\nspelt.csv: batch 15, 5 movements, 1 refused\n%s: near.db: "botl" is new; is it "bolt"?' "$p")" enter --db near.db spelt.csv
ends 0 '' verify --db near.db
# of several near ones the nearest is named, and not the first
printf 'article,change\nKabel 00,1\nKabel 08,1\nKabel 80,1\n' > cables.csv && ends 0 'cables.csv: batch 1, 3 movements' enter --db cables.db cables.csv
ends 0 "$p: cables.db: no movement of \"Kable 08\"; is it \"Kabel 08\"?" history --db cables.db 'Kable 08'
ends 1 "$(printf -- '-:2: refused: out 1 of "kabel 08", 0 there; is it "Kabel 08"?\n-: batch 2, 1 movement, 1 refused')" take --db cables.db 'kabel 08' 1
# a NUL byte is never silent
printf 'article,change\nbo\0lt,1\n' > nul.csv && ends 2 "$p: nul.csv:2: a NUL byte; if it is UTF-16, \`--encoding UTF-16LE\` reads it" enter --db cables.db nul.csv
printf 'article,change\nsalt,1.25\n' > salt.csv
ends 0 '' enter --quiet --db salt.db --scale 2 salt.csv
ends 0 '' put --quiet --db salt.db --mark , salt 0,5
ends 0 '' take --quiet --db salt.db salt 1.7
ends 0 '' balance --db salt.db
has ../out 'article,number\nsalt,0.05\n' "a number that was typed has the decimals of the database"

# The balance in columns, and as JSON
ends 0 '' balance --db show.db --to table
has ../out 'ARTICLE      NUMBER\nbolt              1\nnut              60\nscrew, long      12\n' "the balance in columns"
ends 0 '' balance --db show.db --to json nut
has ../out '[{"article":"nut","number":60}]\n' "the balance as JSON"
ends 0 '' balance --db salt.db --to json
has ../out '[{"article":"salt","number":"0.05"}]\n' "a number with decimals in JSON"
# so are the movements of a batch or of an article, and the batches
ends 0 '' show --db show.db --to table 2
has ../out 'LINE  DATE  ARTICLE      CHANGE  OUTCOME  NUMBER  NOTE\n   2        bolt             -4  entered       6      \n   3        nut              20  entered      60      \n   4        bolt             -7  refused       6      \n   5        screw, long      12  entered      12      \n   6        washer           -3  entered       0      \n   7        bolt             -6  entered       0      \n' "the movements of a batch in columns"
ends 0 '' show --db show.db --to json more.csv
has ../out '[{"line":2,"date":"","article":"bolt","change":1,"outcome":"entered","number":1,"note":""}]\n' "the movements of a batch as JSON"
ends 0 '' show --db salt.db --to json 3
has ../out '[{"line":2,"date":"","article":"salt","change":"-1.70","outcome":"entered","number":"0.05","note":""}]\n' "a movement with decimals in JSON"
ends 0 '' history --db show.db --to table nut
sed -E 's/20[0-9]{2}-[0-9]{2}-[0-9]{2} [0-9]{2}:[0-9]{2}:[0-9]{2}/WHEN/' ../out > ../plain
has ../plain 'BATCH  FILE        LINE  TIME                 DATE  CHANGE  OUTCOME  NUMBER  NOTE\n    1  stock.csv      3  WHEN            40  entered      40      \n    2  monday.csv     3  WHEN            20  entered      60      \n' "the history of an article in columns"
ends 0 "$p: show.db: no movement of \"axe\"" history --db show.db --to json axe
has ../out '[]\n' "the history of an article without movements as JSON"
ends 0 '' batches --db show.db --to json
sed -E 's/20[0-9]{2}-[0-9]{2}-[0-9]{2} [0-9]{2}:[0-9]{2}:[0-9]{2}/WHEN/g; s/[0-9a-f]{64}/SUM/g' ../out > ../plain
has ../plain '[{"batch":1,"file":"stock.csv","sha256":"SUM","kind":"start","undoes":"","time":"WHEN","movements":3,"refused":0},{"batch":2,"file":"monday.csv","sha256":"SUM","kind":"moves","undoes":"","time":"WHEN","movements":6,"refused":1},{"batch":3,"file":"more.csv","sha256":"SUM","kind":"moves","undoes":"","time":"WHEN","movements":1,"refused":0}]\n' "the batches as JSON"
printf 'article,change\n茶,1234567\n' > ../line && input=../line ends 0 '' enter --quiet --db wide.db
ends 0 '' put --quiet --db wide.db "$(printf 'a\tb')" 2
ends 0 '' balance --db wide.db --to table
has ../out 'ARTICLE   NUMBER\na\\tb           2\n茶       1234567\n' "a wide name and an escaped one in columns"

# From a million movements on a new database is suggested
sql said.db "update batch set movements = 999988 where batch = 1"
ends 0 "$(printf 'a.csv: batch 13, 2 movements\n%s: said.db: 1000000 movements, which each call reads: `close` begins a new database with the balance' $p)" enter --db said.db --again a.csv

# A word that is no subcommand, where a database is named
"$program" entr --db said.db a.csv > ../out 2> ../err
[ $? = 2 ] && grep -q "entr" ../err && grep -q "enter" ../err || { cat ../err; fail "a misspelt subcommand"; }

# A batch is taken back, or refused whole
printf 'article,change\nbolt,5\nnut,2\n' > a.csv
printf 'article,change\nbolt,-3\nbolt,-9\nwasher,4\n' > b.csv
ends 1 'b.csv:3: refused: out 9 of "bolt", 2 there' enter --quiet --db u.db a.csv b.csv
cp u.db v.db
ends 1 "$(printf 'a.csv:2: refused: out 5 of "bolt", 2 there\n%s: u.db: nothing was undone' "$p")" undo --quiet --db u.db 1
ends 0 '' balance --db u.db
has ../out 'article,number\nbolt,2\nnut,2\nwasher,4\n' "the balance after an undo that is refused"
ends 0 '' undo --quiet --db u.db 2
ends 0 '' balance --db u.db
has ../out 'article,number\nbolt,5\nnut,2\n' "the balance after an undo"
is u.db 'select line, article, change from movement where batch = 3 order by movement' '2|bolt|3\n4|washer|-4' "the opposite movements"
is u.db 'select batch, file, kind, undoes, movements, refused from batch order by batch' '1|a.csv|moves||2|0\n2|b.csv|moves||3|1\n3|b.csv|undo|2|2|0' "the batch of an undo"
ends 1 "$p: u.db: batch 2 was undone by batch 3" undo --quiet --db u.db 2
ends 2 "$p: u.db: no batch 9" undo --quiet --db u.db 9
ends 0 '' undo --quiet --db u.db 1
ends 0 '' balance --db u.db
has ../out 'article,number\n' "the balance after two undos"
ends 1 "$(printf 'b.csv:2: refused: out 3 of "bolt", 0 there\n%s: u.db: nothing was undone' "$p")" undo --quiet --db u.db 3
ends 0 '' verify --db u.db
has ../out '4 batches, 9 movements, 1 of them refused: the balance and the refusals agree\n' "a stock with undos agrees"
cp u.db x.db
sql x.db 'update batch set undoes = null where batch = 3'
ends 1 'x.db: batch 3: not as it was entered: the scale, its row, or a row of its movements was changed' verify --db x.db

# An undo whose total would be too large names the movement in the file of its batch
printf 'article,change\nbolt,5\n' > in.csv
printf 'article,change\nbolt,-2\nbolt,-3\n' > out.csv
printf 'article,change\nnut,9223372036854775804\n' > full.csv
ends 0 '' enter --quiet --db full.db in.csv out.csv full.csv
ends 5 'hashbag_ledger: out.csv:3: total past 9223372036854775807' undo --quiet --db full.db 2
ends 0 '' balance --db full.db
has ../out 'article,number\nnut,9223372036854775804\n' "the balance after an undo that is too large"

# A row that another program changed is named
# changed TEXT WHAT: after this change verify ends with status 1 and says this
changed() {
  cp v.db w.db
  rm -f w.db-wal
  [ -z "$(sql w.db "$1")" ] || fail "a change returns rows: $1"
  ends 1 "w.db: $2" verify --db w.db
}
changed "update article set number = number + 1 where article = 'nut'" '"nut": 3 kept, 2 by the movements'
changed "delete from article where article = 'bolt'" '"bolt": 0 kept, 2 by the movements'
changed "insert into article values ('axe', 1)" '"axe": 1 kept, 0 by the movements'
changed "insert into article values ('zinc', 1)" '"zinc": 1 kept, 0 by the movements'
changed "delete from article where article = 'washer'" '"washer": 0 kept, 4 by the movements'
changed "update refusal set there = 1" 'movement 4: another refusal than by the movements'
changed "update movement set change = 3 where movement = 2" '"nut": 2 kept, 3 by the movements'
changed "delete from refusal" 'batch 2: other numbers of movements than it has'
changed "delete from movement where movement = 2" 'batch 1: other numbers of movements than it has'
changed "update movement set batch = 7 where movement = 5" 'batch 2: other numbers of movements than it has'
changed "insert into movement values (9, 3, 1, 'bolt', 1, null, null)" 'batch 3: other numbers of movements than it has'

# What no count shows is in the seal of its batch
# unsealed BATCH TEXT: after this change verify says that this batch isn't as it was entered
unsealed() {
  changed "$2" "batch $1: not as it was entered: the scale, its row, or a row of its movements was changed"
}
unsealed 1 "update meta set value = 2 where name = 'scale'"
unsealed 1 "update batch set file = 'c.csv' where batch = 1"
unsealed 2 "update batch set sha256 = (select sha256 from batch where batch = 1) where batch = 2"
unsealed 1 "update batch set kind = 'start' where batch = 1"
unsealed 2 "update batch set undoes = 1 where batch = 2"
unsealed 1 "update batch set time = '2026-01-02 03:04:05' where batch = 1"
unsealed 2 "update movement set line = 4 where movement = 4"
unsealed 2 "update movement set change = -8 where movement = 4"
unsealed 2 "update movement set article = 'nut' where movement = 4"
unsealed 1 "update batch set seal = (select seal from batch where batch = 2) where batch = 1"
cp v.db w.db
sql w.db 'update movement set line = -1 where movement = 2'
ends 2 "$p: w.db: a number below 0" history --db w.db nut
ends 2 "$p: w.db: a number below 0" undo --quiet --db w.db 1
ends 0 '' history --db w.db washer

# Decimals: the scale is kept, and another is rejected
printf 'article;change\nsalt;1,5\nsalt;-0,25\n' > kg.csv
ends 0 '' enter --quiet --db kg.db --scale 2 --mark , --delimiter ';' kg.csv
ends 0 '' balance --db kg.db --mark . --delimiter ,
has ../out 'article,number\nsalt,1.25\n' "a balance with decimals"
is kg.db "select value from meta where name = 'scale'" '2' "the scale in the file"
printf 'article,change\nsalt,-2.00\nsalt,0.05\n' > point.csv
ends 1 'point.csv:2: refused: out 2.00 of "salt", 1.25 there' enter --quiet --db kg.db --mark . -d , point.csv
ends 0 '' history --db kg.db -d , --mark . salt
cut -d , -f 6,8 ../out > ../plain
has ../plain 'change,number\n1.50,1.50\n-0.25,1.25\n-2.00,1.25\n0.05,1.30\n' "a history with decimals"
ends 2 "$p: kg.db: numbers have 2 decimals, not 3" enter --quiet --db kg.db --scale 3 more.csv
ends 2 "$p: kg.db: numbers have 2 decimals, not 1" enter --quiet --db kg.db --scale 1 more.csv
printf 'article,change\ngold,1.000000001\n' > gold.csv
ends 0 '' enter --quiet --db gold.db --scale 9 gold.csv
ends 0 '' balance --db gold.db
has ../out 'article,number\ngold,1.000000001\n' "a balance with nine decimals"
printf 'article,change\nsalt,92233720368547758.07\n' > heavy.csv
ends 5 "$p: heavy.csv:2: total past 92233720368547758.07" enter --quiet --db kg.db --mark . -d , heavy.csv
cp kg.db w.db
sql w.db "update movement set change = 9223372036854775807 where movement in (1, 4)"
ends 1 'w.db: movement 4: total past 92233720368547758,07' verify --db w.db

# The columns, the delimiter and the mark of the first call are kept, and so read and written; those of a later call count for that call alone
printf 'Artikel\tArt\tMenge\nsalt\tin\t2,5\nsalt\tout\t0,5\n' > kept.csv
ends 0 '' enter --quiet --db kept.db --scale 1 --mark , --delimiter tab --columns Artikel,Art,Menge kept.csv
is kept.db 'select name, value from meta order by name' 'columns|Artikel,Art,Menge\ndelimiter|tab\nhashbag_ledger|3\nmark|,\nscale|1' "what a stock keeps"
printf 'Artikel\tArt\tMenge\nsalt\tin\t0,5\n' > kept2.csv
ends 0 '' enter --quiet --db kept.db kept2.csv
ends 0 '' balance --db kept.db
has ../out 'article\tnumber\nsalt\t2,5\n' "a balance is written as the first file was read"
printf 'article,change\nsalt,0.5\nsalt,-9.0\n' > other.csv
ends 1 'other.csv:3: refused: out 9.0 of "salt", 3.0 there' enter --quiet --db kept.db --mark . -d , -c article,change other.csv
printf 'article\tchange\nsalt\t0,5\n' > other2.csv
ends 0 '' enter --quiet --db kept.db --columns article,change other2.csv
is kept.db 'select name, value from meta order by name' 'columns|Artikel,Art,Menge\ndelimiter|tab\nhashbag_ledger|3\nmark|,\nscale|1' "options of a later call change nothing that is kept"
ends 2 "$p: other2.csv:1: no column \`Artikel\`; there are: \`article\`, \`change\`" enter --quiet --db kept.db --again other2.csv
ends 0 '' take --quiet --db kept.db salt 0,5
ends 0 '' put --quiet --db kept.db --mark . salt 1.5
ends 0 '' balance --db kept.db --mark . --to json
has ../out '[{"article":"salt","number":"4.5"}]\n' "the balance after movements that were typed"
ends 0 '' undo --quiet --db kept.db 3
ends 0 '' verify --db kept.db
ends 0 '' close --db kept.db --into kept3.db
ends 0 '' put --quiet --db kept3.db salt 0,5
ends 0 '' balance --db kept3.db --to json
has ../out '[{"article":"salt","number":"4.5"}]\n' "a number of JSON has a point, whatever the mark"
ends 0 '' show --db kept3.db --to json 2
has ../out '[{"line":2,"date":"","article":"salt","change":"0.5","outcome":"entered","number":"4.5","note":""}]\n' "a number of JSON has a point, whatever the mark, in a movement"
is kept3.db 'select name, value from meta order by name' 'columns|Artikel,Art,Menge\ndelimiter|tab\nhashbag_ledger|3\nmark|,\nscale|1' "a new stock keeps what the old one kept"
ends 0 '' close --db kept.db --into kept4.db --mark . -d ';' -c a,b
is kept4.db 'select name, value from meta order by name' 'columns|a,b\ndelimiter|;\nhashbag_ledger|3\nmark|.\nscale|1' "a new stock keeps what close names"
ends 0 '' balance --db kept4.db
has ../out 'article;number\nsalt;4.0\n' "the balance of a stock that keeps something else"
printf 'article,change\nsalt,1\n' > ../line && input=../line ends 0 '' enter --quiet --db kept5.db --mark ,
is kept5.db 'select name, value from meta order by name' 'columns|article,change\ndelimiter|,\nhashbag_ledger|3\nmark|,\nscale|0' "what a stock keeps that begins with standard input"
# damaged TEXT WHAT: after this change of the table meta the stock can't be read, and this is said
damaged() {
  cp kept.db w.db
  rm -f w.db-wal
  sql w.db "$1"
  ends 2 "$p: w.db: $2" enter --quiet --db w.db --again kept2.csv
}
damaged "update meta set value = '|' where name = 'delimiter'" 'no delimiter in the table meta'
damaged "update meta set value = ';' where name = 'mark'" 'no mark in the table meta'
damaged "delete from meta where name = 'mark'" 'no mark, delimiter or columns in the table meta'
damaged "delete from meta where name = 'columns'" 'no mark, delimiter or columns in the table meta'
damaged "update meta set value = 'a' where name = 'columns'" 'no two or three columns in the table meta'

# A new database with the balance as its beginning
ends 0 '' balance --db s.db
cp ../out before.csv
ends 0 '' close --db s.db --into next.db
ends 0 '' balance --db next.db
cmp -s ../out before.csv || fail "the balance of a new database"
is next.db 'select batch, file, kind, movements from batch' '1|s.db|start|3' "the batch at the beginning of a new database"
ends 0 '' verify --db next.db
said='has a stock already, so it takes no other at the beginning'
ends 2 "$p: next.db: $said" close --db s.db --into next.db
ends 2 "$p: s.db: $said" enter --quiet --db s.db --from stock.csv

# If the file of refusals can't be written, it is known that all was entered
cp typed.db full.db && printf 'article,change\nbolt,-9\n' > full.csv
ends 4 "$(printf 'full.csv: batch 6, 1 movement, 1 refused\n%s: /dev/full: No space left on device (os error 28)' "$p")" enter --db full.db --refused /dev/full full.csv

# A stock that is counted: the differences are entered and written. An article that two lines name has their sum; one that isn't named stays
printf 'article,change\nbolt,10\nnut,40\nwasher,3\n' > count1.csv
ends 0 '' enter --quiet --db count.db count1.csv
printf 'article,number\nbolt,4\nscrew,2\nnut,40\nbolt,3\n' > counted.csv
ends 0 'counted.csv: batch 2, 3 movements' count --db count.db counted.csv
has ../out 'article,there,counted,change\nbolt,10,7,-3\nscrew,0,2,2\nnut,40,40,0\n' "the differences of a count"
ends 0 '' balance --db count.db
has ../out 'article,number\nbolt,7\nnut,40\nscrew,2\nwasher,3\n' "the balance after a count"
is count.db 'select line, article, change from movement where batch = 2 order by movement' '2|bolt|-3\n3|screw|2\n4|nut|0' "the movements of a count"
is count.db 'select kind, file, undoes, movements, refused from batch where batch = 2' 'count|counted.csv||3|0' "the batch of a count"
is count.db 'select sha256 from batch where batch = 2' "$(sha256sum < counted.csv | cut -d ' ' -f 1)" "the sum of a counted file"
ends 0 '' verify --db count.db
# a counted article that is new is named if it is near to another one, unless more than ten are new
cp count.db spelt.db && printf 'article,number\nbotl,4\nx,1\n' > spelt.csv
ends 0 "$(printf 'spelt.csv: batch 3, 2 movements\n%s: spelt.db: "botl" is new; is it "bolt"?' "$p")" count --db spelt.db spelt.csv
{ echo article,number && for i in 1 2 3 4 5 6 7 8 9 10 11; do echo "nuts$i,1"; done; } > spelt.csv && ends 0 'spelt.csv: batch 4, 11 movements' count --db spelt.db spelt.csv
ends 0 '' show --db count.db counted.csv
has ../out 'line,date,article,change,outcome,number,note\n2,,bolt,-3,entered,7,\n3,,screw,2,entered,2,\n4,,nut,0,entered,40,\n' "the movements of a count, shown"
ends 0 '' history --db count.db bolt
cut -d , -f 1-3,6-8 ../out > ../plain
has ../plain 'batch,file,line,change,outcome,number\n1,count1.csv,2,10,entered,10\n2,counted.csv,2,-3,entered,7\n' "the history of a counted article"
ends 0 '' batches --db count.db
[ "$(cut -d , -f 1,2,4 ../out | tail -n 1)" = 2,counted.csv,count ] || fail "a count among the batches"
ends 6 "$p: counted.csv: counted before, as batch 2 (counted.csv); \`--again\` takes it once more" count --db count.db counted.csv
ends 6 "$p: counted.csv: counted before, as batch 2 (counted.csv); \`--again\` takes it once more" enter --db count.db counted.csv
ends 0 'counted.csv: batch 3, 3 movements' count --db count.db --again -o again.txt counted.csv
has again.txt 'article,there,counted,change\nbolt,7,7,0\nscrew,2,2,0\nnut,40,40,0\n' "the differences of a second count in a file"
ends 0 '' undo --quiet --db count.db --last
ends 0 'counted.csv: batch 5, 3 movements, the opposites of batch 2' undo --db count.db counted.csv
ends 0 '' balance --db count.db
has ../out 'article,number\nbolt,10\nnut,40\nwasher,3\n' "the balance after a count is undone"
printf 'Artikel;Zahl\nnut;1\nbolt;0\ntape;0\n' > all.csv
ends 0 '' count --quiet --db count.db --all -d ';' --start-columns Artikel,Zahl all.csv
has ../out 'article;there;counted;change\nnut;40;1;-39\nbolt;10;0;-10\ntape;0;0;0\nwasher;3;0;-3\n' "the differences of a count of all"
ends 0 '' balance --db count.db
has ../out 'article,number\nnut,1\n' "the balance after a count of all"
is count.db 'select line, article, change from movement where batch = 6 order by movement' '2|nut|-39\n3|bolt|-10\n4|tape|0\n0|washer|-3' "the movements of a count of all"
ends 0 '' verify --db count.db
printf 'article,number\nnut,5\n' > ../line
input=../line ends 0 '-: batch 7, 1 movement' count --db count.db
has ../out 'article,there,counted,change\nnut,1,5,4\n' "a count on standard input"
printf 'article,number\n' > nothing.csv
ends 0 'nothing.csv: batch 8, 0 movements' count --db count.db nothing.csv
ends 0 'nothing.csv: batch 9, 1 movement' count --db count.db --all nothing.csv
ends 0 '' balance --db count.db
has ../out 'article,number\n' "the balance after nothing is counted"
ends 0 '' verify --db count.db
printf 'article,number\nnut,-1\n' > minus.csv
ends 2 "$p: minus.csv:2: no number: \`-1\`" count --db count.db minus.csv
ends 2 "$p: more.csv:1: no column \`number\`; there are: \`article\`, \`change\`" count --db count.db more.csv
ends 2 "$p: ./count.db: both an input and an output, or two outputs" count --db count.db ./count.db
ends 2 "$p: all.csv: both an input and an output, or two outputs" count --db count.db -o all.csv all.csv
ends 2 "$p: count.db-wal: both an input and an output, or two outputs" count --db count.db -o count.db-wal more.csv
ends 4 "$p: none.db: no such file" count --db none.db counted.csv
[ ! -e none.db ] || fail "a database is made by count"
printf 'article,number\nnut,9223372036854775807\nbolt,1\n' > most2.csv
ends 5 "$p: most2.csv:3: total past 9223372036854775807" count --db count.db most2.csv
ends 2 "$p: minus.csv:2: no number: \`-1\`" count --db count.db -o again.txt minus.csv
has again.txt 'article,there,counted,change\nbolt,7,7,0\nscrew,2,2,0\nnut,40,40,0\n' "the file of -o after a bad count"
is count.db 'select count(*) from batch' '9' "the batches after bad counts"
printf 'article\tnumber\nsalt\t1,5\n' > kept6.csv
ends 0 '' count --quiet --db kept.db kept6.csv
has ../out 'article\tthere\tcounted\tchange\nsalt\t4,0\t1,5\t-2,5\n' "a count with decimals, read and written as the stock keeps it"
ends 0 '' verify --db kept.db

# Files that have no stock
ends 4 "$p: none.db: no such file" balance --db none.db
[ ! -e none.db ] || fail "a database is made by balance"
: > empty.db
ends 2 "$p: empty.db: no stock in it yet" balance --db empty.db
[ ! -s empty.db ] || fail "an empty file is written by balance"
ends 0 '' enter --quiet --db empty.db more.csv
ends 0 '' verify --db empty.db
mkdir folder.db
opened="; the file and its folder must be there, and writable, also to be read, and the file must have one name (no second hard link)"
cp v.db linked.db && ln linked.db second.db
ends 4 "$p: linked.db: unable to open database file$opened" balance --db linked.db
cp v.db trigger.db
sql trigger.db 'create trigger t after insert on movement begin select 1; end'
ends 2 "$p: trigger.db: not supported; perhaps another program made a trigger, which has to be dropped" verify --db trigger.db
ends 2 "$p: trigger.db: no such table; perhaps another program made a trigger, which has to be dropped" put --db trigger.db bolt 1
ends 4 "$p: folder.db: unable to open database file$opened" balance --db folder.db
ends 4 "$p: no/s.db: unable to open database file$opened" enter --quiet --db no/s.db more.csv
sql other.db 'create table t (a)'
sum=$(sha256sum < other.db)
ends 2 "$p: other.db: a database of another program" enter --quiet --db other.db more.csv
sql meta.db 'create table meta (name text, value integer)'
ends 2 "$p: meta.db: a database of another program" enter --quiet --db meta.db more.csv
same other.db "$sum" "a database of another program is written"
cp v.db later.db
sql later.db "update meta set value = 4 where name = 'hashbag_ledger'"
sum=$(sha256sum < later.db)
ends 2 "$p: later.db: a stock of version 4, which is later than 3" enter --quiet --db later.db more.csv
same later.db "$sum" "a stock of a later version is written"

# A stock of an earlier version isn't read: the message names what reads it
cp v.db early.db
for version in 1 2; do
  sql early.db "update meta set value = $version where name = 'hashbag_ledger'"
  sum=$(sha256sum < early.db)
  ends 2 "$p: early.db: a stock of version $version: \`close --into NEW\` of the program of commit 2d845ddb makes one of version 3 of it" enter --quiet --db early.db more.csv
  same early.db "$sum" "a stock of version $version is written"
done
sql early.db "update meta set value = 0 where name = 'hashbag_ledger'"
ends 2 "$p: early.db: no version from 1 on in the table meta" balance --db early.db
for change in 'movement rename column date to day' 'batch rename column seal to mark'; do
  cp v.db other3.db
  sql other3.db "alter table $change"
  ends 2 "$p: other3.db: another version in the table meta than its tables have" balance --db other3.db
done
cp v.db nocase.db
sql nocase.db 'drop table article'
sql nocase.db 'create table article (article text primary key not null collate nocase, number integer not null)'
sql nocase.db "insert into article values ('axe', 1), ('Bolt', 2)"
ends 2 "$p: nocase.db: articles that don't rise in the table article" balance --db nocase.db
for i in $(seq 1000); do echo "no database, line $i"; done > text.db
head -c 9000 v.db > cut.db
for name in text cut; do
  sum=$(sha256sum < $name.db)
  "$program" enter --quiet --db $name.db more.csv > ../out 2> ../err
  [ $? = 2 ] || { cat ../err; fail "not status 2: $name.db"; }
  grep -q "^$p: $name.db: " ../err || { cat ../err; fail "no message on $name.db"; }
  same $name.db "$sum" "$name.db is written"
done

# A file that is in use, and one that may only be read. A library that is loaded before the C library's writes how many microseconds each
# pause is to take, and doesn't wait.
cat > ../pauses.c << 'END'
#include <stdio.h>
#include <time.h>
int nanosleep(const struct timespec *pause, struct timespec *rest) {
  (void)rest;
  return dprintf(9, "%ld\n", pause->tv_sec * 1000000L + pause->tv_nsec / 1000) < 0 ? -1 : 0;
}
END
cc -shared -fPIC -o ../pauses.so ../pauses.c || fail "no C compiler"
# A process that only reads, and has the database open without doing anything, keeps it out too.
python3 - s.db ../reader ../read << 'END' &
import os, sqlite3, sys, time
connection = sqlite3.connect(sys.argv[1])
connection.execute("select count(*) from movement").fetchall()
open(sys.argv[2], "w").close()
while not os.path.exists(sys.argv[3]):
    time.sleep(0.05)
END
while [ ! -e ../reader ]; do sleep 0.05; done
ends 7 "$p: s.db: another process has it open" balance --db s.db --wait 0
touch ../read && wait
python3 - s.db ../held ../go << 'END' &
import os, sqlite3, sys, time
connection = sqlite3.connect(sys.argv[1], isolation_level=None)
connection.execute("pragma locking_mode = exclusive")
connection.execute("begin exclusive")
open(sys.argv[2], "w").close()
while not os.path.exists(sys.argv[3]):
    time.sleep(0.05)
connection.close()
END
while [ ! -e ../held ]; do sleep 0.05; done
ends 7 "$p: s.db: another process has it open" balance --db s.db --wait 0
ends 7 "$p: s.db: another process has it open" enter --quiet --db s.db --wait 1 more.csv
LD_PRELOAD=$PWD/../pauses.so "$program" balance --db s.db --wait 3 > ../out 2> ../err 9> ../pauses
[ $? = 7 ] || { cat ../err; fail "a file that stays in use"; }
[ "$(awk '{ all += $1 } END { print all }' ../pauses)" = 3000000 ] || fail "not 3 seconds of pauses: $(sort ../pauses | uniq -c)"
(sleep 1; : > ../go) &
ends 0 '' balance --db s.db --wait 30 bolt
has ../out 'article,number\nbolt,5\n' "the balance after a wait"
wait
chmod 755 .. .
cp v.db read.db
chmod 444 read.db
if [ "$(id -u)" != 0 ]; then
  ends 4 "$p: read.db: unable to open database file$opened" balance --db read.db
elif command -v setpriv > /dev/null; then
  cp "$program" ../ledger && chmod 755 ../ledger
  setpriv --reuid 65534 --regid 65534 --clear-groups ../ledger balance --db read.db > ../out 2> ../err
  [ $? = 4 ] || fail "a file that may only be read"
  has ../err "$p: read.db: unable to open database file$opened\n" "the message on a file that may only be read"
else
  echo "not tried: there is no setpriv, so no file that may only be read"
fi

# Two processes at once: both files are entered
for i in 1 2 3 4 5 6 7 8 9 10; do
  printf 'article,change\nx%d,1\nx,1\n' "$i" > left.csv
  printf 'article,change\nx,1\ny%d,1\n' "$i" > right.csv
  "$program" enter --quiet --db both.db --wait 60 left.csv &
  one=$!
  "$program" enter --quiet --db both.db --wait 60 right.csv &
  two=$!
  wait $one || fail "the first of two processes"
  wait $two || fail "the second of two processes"
done
ends 0 '' balance --db both.db x x10 y10
has ../out 'article,number\nx,20\nx10,1\ny10,1\n' "the balance after two processes at a time"
ends 0 '' verify --db both.db
has ../out '20 batches, 40 movements, 0 of them refused: the balance and the refusals agree\n' "two processes at a time"

# A stock at the beginning isn't entered into a stock, nor with another file; a call with it alone reads no standard input
ends 2 "$p: v.db: has a stock already, so it takes no other at the beginning" enter --quiet --db v.db --from stock.csv more.csv
printf 'no header\n' > ../line && input=../line ends 0 '' enter --quiet --db alone.db --from stock.csv

# A file that may not grow: the state is the one before
for i in $(seq 3000); do echo "article $i,1"; done > ../rows
(echo article,change; cat ../rows) > long.csv
(
  trap '' XFSZ
  ulimit -f 64
  "$program" enter --quiet --db s.db long.csv > ../out 2> ../err
)
[ $? = 4 ] || { cat ../err; fail "a file that may not grow"; }
ends 0 '' verify --db s.db
ends 0 '' balance --db s.db
cmp -s ../out before.csv || fail "the balance after a failed write"
ends 0 '' enter --quiet --db s.db long.csv
is s.db 'select count(*), sum(number) from article' '3003|3109' "the same file once it may grow"

# A shop of two weeks: 20 articles, a dated stock at the beginning, sales and deliveries, a misspelt delivery that is undone, a misspelt sale that
# is refused, and a count. What is wanted are sums by Python's SQLite over the files themselves, in the table `plain`
mkdir shop && cd shop || exit 1
python3 - << 'EOF'
import csv
articles = [f"{kind} M{size}" for kind in ("Schraube", "Mutter", "Scheibe", "Dübel", "Nagel") for size in (3, 4, 5, 6)]
def put(name, header, rows):
    with open(name, "w", newline="") as file:
        csv.writer(file, lineterminator="\n").writerows([header, *rows])
put("start.csv", ["article", "number"], [[name, 60 + at] for at, name in enumerate(articles)])
for day in range(2, 16):
    date = f"2026-11-{day:02}"
    put(f"sold{day}.csv", ["date", "article", "change"], [[date, name, -((at * day) % 5 + 1)] for at, name in enumerate(articles) if (at + day) % 3])
    put(f"came{day}.csv", ["date", "article", "change"], [[date, name, (at + day) % 9 + 2] for at, name in enumerate(articles) if (at + day) % 4 == 1])
put("wrong.csv", ["date", "article", "change"], [["2026-11-06", "Schruabe M4", 5], ["2026-11-06", "Nagel M3", 7]])
put("refused.csv", ["date", "article", "change"], [["2026-11-09", "Mutetr M5", -2]])
EOF
ends 0 'start.csv: batch 1, 20 movements' enter --db s.db --from start.csv --from-on 2026-11-01
for day in $(seq 2 15); do
  ends 0 '' enter --quiet --db s.db --date date "sold$day.csv" "came$day.csv"
  if [ "$day" = 6 ]; then
    "$program" enter --db s.db --date date wrong.csv 2> ../err || fail "a misspelt delivery"
    [ "$(tail -n 1 ../err)" = "$p: s.db: \"Schruabe M4\" is new; is it \"Schraube M4\"?" ] || { cat ../err; fail "a misspelt delivery is named"; }
    ends 0 '' undo --quiet --db s.db wrong.csv
  elif [ "$day" = 9 ]; then
    ends 1 'refused.csv:2: refused: out 2 of "Mutetr M5", 0 there; is it "Mutter M5"?' enter --quiet --db s.db --date date refused.csv
  elif [ "$day" = 11 ]; then
    printf 'article,number\nDübel M4,50\nNagel M6,0\n' > counted.csv
    ends 0 '' count --quiet --db s.db --on 2026-11-11 counted.csv
    ends 0 '' put --quiet --db s.db --on 2026-11-11 'Nagel M6' 9
  fi
done
ends 0 '' verify --db s.db
python3 - << 'EOF' || fail "the tables for the sums"
import csv, sqlite3
plain = sqlite3.connect("plain.db")
plain.execute("create table plain (date text, article text, change integer)")
def add(name):
    with open(name, newline="") as file:
        for row in csv.DictReader(file):
            plain.execute("insert into plain values (?, ?, ?)", (row.get("date", "2026-11-01"), row["article"], row.get("change") or row["number"]))
def counted(article, number):
    plain.execute("insert into plain select '2026-11-11', ?, ? - sum(change) from plain where article = ?", (article, number, article))
add("start.csv")
for day in range(2, 16):
    add(f"sold{day}.csv")
    add(f"came{day}.csv")
    if day == 11:
        counted("Dübel M4", 50)
        counted("Nagel M6", 0)
        plain.execute("insert into plain values ('2026-11-11', 'Nagel M6', 9)")
plain.commit()
EOF
ends 0 '' balance --db s.db
[ "$(tail -n +2 ../out | tr , '|')" = "$(sql plain.db 'select article, sum(change) from plain group by 1 having sum(change) <> 0 order by 1')" ] || { cat ../out; fail "the balance of a shop"; }
for day in $(seq -w 1 15); do
  ends 0 '' balance --db s.db --at "2026-11-$day"
  [ "$(tail -n +2 ../out | tr , '|')" = "$(sql plain.db "select article, sum(change) from plain where date <= '2026-11-$day' group by 1 having sum(change) <> 0 order by 1")" ] ||
    { cat ../out; fail "the balance of a shop on the day $day"; }
done
for article in 'Dübel M4' 'Nagel M6' 'Mutter M5'; do
  ends 0 '' history --db s.db "$article"
  [ "$(tail -n +2 ../out | cut -d , -f 5,6,8 | tr , '|')" = "$(sql plain.db "select date, change, sum(change) over (order by rowid) from plain where article = '$article' order by rowid")" ] ||
    { cat ../out; fail "the history of $article"; }
done
cd .. || exit 1

# Arguments
for words in "enter a.csv" "balance" "history --db s.db" "undo --quiet --db s.db" "undo --quiet --db s.db x" "close --db s.db" "verify --db" "balance --db s.db --wrong" \
  "show --db s.db" "count a.csv" "count --db s.db a.csv b.csv" "take --db s.db bolt" "put --db s.db 5" "balance --db s.db --to csw" "history --db s.db --to csw bolt" \
  "enter --quiet --db s.db --wait x" "enter --quiet --db s.db --columns a" "enter --quiet --db s.db --start-columns a,b,c" "enter --quiet --db s.db --scale 10"; do
  # shellcheck disable=SC2086
  "$program" $words > ../out 2> ../err < /dev/null
  [ $? = 2 ] && [ ! -s ../out ] && [ -s ../err ] || { cat ../err; fail "bad arguments: $words"; }
done
for job in enter take put count balance history batches show undo verify close; do
  ends 0 "" $job --help
  grep -q -e --db ../out || fail "no --db in the help of $job"
done
ends 0 "" --help
grep -q 'enter --db' ../out || fail "no subcommand in the help"
ends 0 "" total --help
for heading in 'Files and columns:' 'Numbers and fields:' Output:; do grep -qx "$heading" ../out || fail "no heading $heading in the help of total"; done
ends 0 "" enter --help
for heading in 'Files and columns:' 'Numbers and fields:' 'What is entered:'; do grep -qx "$heading" ../out || fail "no heading $heading in the help of enter"; done

echo "stock: ok"
