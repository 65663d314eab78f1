#!/usr/bin/env bash
# bash tests/programs/dates.sh [PROGRAM]: the dates and notes of movements in the databases of the program `hashbag_ledger`: what is kept, shown, undone,
# sealed and rejected, and the balance of a day. The values were found by hand; Python's own module of SQLite reads the databases too, and changes
# them. The program is proved and compiled first, unless it is named. The last line is 'dates: ok' or says what is wrong.
. "$(dirname "$0")/lib.sh"
. "$(dirname "$0")/databases.sh"
begin hashbag_ledger "$@"

p=hashbag_ledger
printf 'article,number\nbolt,10\nnut,40\nwasher,3\n' > stock.csv
printf 'article,change\nbolt,1\n' > more.csv

# Dates and notes: those of a column, which history and show write, and which an undo keeps
printf 'article,change,on,why\nbolt,5,2026-02-01,"delivery, late"\nbolt,-2,2026-01-31,\nnut,7,2026-01-31,count\nnut,-9,2026-01-01,too much\n' > jan.csv
ends 1 "$(printf 'jan.csv:5: refused: out 9 of "nut", 7 there\njan.csv: batch 1, 4 movements, 1 refused')" enter --db days.db --date on --note why jan.csv
is days.db 'select date, note from movement order by movement' '2026-02-01|delivery, late\n2026-01-31|\n2026-01-31|count\n2026-01-01|too much' "the dates and notes in the file"
ends 0 '' show --db days.db 1
has ../out 'line,date,article,change,outcome,number,note\n2,2026-02-01,bolt,5,entered,5,"delivery, late"\n3,2026-01-31,bolt,-2,entered,3,\n4,2026-01-31,nut,7,entered,7,count\n5,2026-01-01,nut,-9,refused,7,too much\n' "a batch with dates and notes"
ends 0 '' verify --db days.db
ends 0 '' balance --db days.db
has ../out 'article,number\nbolt,3\nnut,7\n' "the balance by the order of entry"
ends 0 '' balance --db days.db --at 2026-01-30
has ../out 'article,number\n' "the balance before the first date of an entered movement"
ends 0 '' balance --db days.db --at 2026-01-31
has ../out 'article,number\nbolt,-2\nnut,7\n' "the balance of a day, below 0"
ends 0 '' balance --db days.db --at 2026-01-31 --to json
has ../out '[{"article":"bolt","number":-2},{"article":"nut","number":7}]\n' "the balance of a day as JSON"
ends 0 '' balance --db days.db --at 2026-01-31 --to table bolt
has ../out 'ARTICLE  NUMBER\nbolt         -2\n' "the balance of a day in columns"
ends 0 '' balance --db days.db --at 2026-02-01
has ../out 'article,number\nbolt,3\nnut,7\n' "the balance of a later day"
ends 0 "$p: days.db: none of \"axe\"" balance --db days.db --at 2026-02-01 nut axe
has ../out 'article,number\naxe,0\nnut,7\n' "the balance of some articles of a day"
ends 0 '' put --quiet --db days.db nut 1
ends 0 '' balance --db days.db --at 2026-02-01 nut
has ../out 'article,number\nnut,7\n' "a movement without a date counts by the time of its batch"
sql days.db "update batch set time = '2026-01-31 23:59:59' where batch = 2"
ends 0 '' balance --db days.db --at 2026-01-31 nut
has ../out 'article,number\nnut,8\n' "a movement without a date counts on the day of its batch"
ends 0 '' undo --quiet --db days.db 1
is days.db 'select line, change, date, note from movement where batch = 3 order by movement' '3|2|2026-01-31|\n2|-5|2026-02-01|delivery, late\n4|-7|2026-01-31|count' "an undo keeps dates and notes"
ends 0 '' balance --db days.db --at 2026-01-31
has ../out 'article,number\nnut,1\n' "the balance of a day after an undo"
ends 0 '' history --quiet --db days.db nut
cut -d , -f 1,3,5- ../out > ../plain
has ../plain 'batch,line,date,change,outcome,number,note\n1,4,2026-01-31,7,entered,7,count\n1,5,2026-01-01,-9,refused,7,too much\n2,2,,1,entered,8,\n3,4,2026-01-31,-7,entered,1,count\n' "a history with dates and notes"
printf 'day;article;change\n2024-02-29;axe;1\n' > leap.csv
ends 0 '' enter --quiet --db days.db --delimiter ';' --date day --note '' leap.csv
for bad in 1900-02-29 2026-02-29 2026-13-01 2026-00-10 2026-04-31 2026-01-00 2026-1-01 26-01-01 2026/01/01 20260101 '2026-01-01 ' '' 0x26-01-01; do
  printf 'article,change,on\nbolt,1,2026-01-31\nnut,1,%s\n' "$bad" > bad.csv
  ends 2 "$p: bad.csv:3: no date: \`$bad\`; a date is written as 2026-02-28 (\`--date-form YYYY-MM-DD\`)" enter --quiet --db days.db --date on --note '' bad.csv
  ends 2 "$p: bad.csv:3: no date: \`$bad\`; a date is written as 2026-02-28 (\`--date-form YYYY-MM-DD\`)" enter --quiet --db none.db --date on bad.csv
  ends 2 "$p: --at takes a date, as 2026-02-28" balance --db days.db --at "$bad"
done
[ ! -e none.db ] || fail "a database is made although a date is bad"
ends 2 "$p: bad.csv:1: no column \`day\`; there are: \`article\`, \`change\`, \`on\`" enter --quiet --db days.db --date day bad.csv

# A new database keeps the columns of dates and notes. Those of a later call count for that call alone, and an empty name is no column
printf 'article,change,on,why\nbolt,5,2026-02-01,late\n' > kept1.csv
printf 'article,change,on,why\nbolt,1,2026-01-03,early\n' > kept2.csv
printf 'article,change,day\nbolt,2,2026-01-04\n' > kept3.csv
ends 0 '' enter --quiet --db kept.db --date on --note why kept1.csv
is kept.db "select name, value from meta where name in ('date', 'note') order by name" 'date|on\nnote|why' "the columns of dates and notes in the table meta"
ends 0 '' enter --quiet --db kept.db kept2.csv
is kept.db 'select date, note from movement order by movement' '2026-02-01|late\n2026-01-03|early' "dates and notes by the columns that are kept"
ends 0 '' balance --db kept.db --at 2026-01-31
has ../out 'article,number\nbolt,1\n' "the balance of a day after a file without options"
ends 2 "$p: kept3.csv:1: no column \`on\`; there are: \`article\`, \`change\`, \`day\`; \`--date ''\` reads no dates" enter --quiet --db kept.db kept3.csv
ends 2 "$p: kept3.csv:1: no column \`why\`; there are: \`article\`, \`change\`, \`day\`; \`--note ''\` reads no notes" enter --quiet --db kept.db --date day kept3.csv
ends 0 '' enter --quiet --db kept.db --date day --note '' kept3.csv
ends 0 '' enter --quiet --db kept.db --again --date '' --note '' kept3.csv
ends 0 '' put --quiet --db kept.db bolt 1
ends 0 '' take --quiet --db kept.db bolt 1
is kept.db 'select date, note from movement where movement > 2 order by movement' '2026-01-04|\n|\n|\n|' "dates and notes by options"
ends 0 '' undo --quiet --db kept.db kept2.csv
ends 0 '' count --quiet --db kept.db --again stock.csv
ends 0 '' verify --db kept.db
ends 0 '' close --db kept.db --into kept4.db
is kept4.db "select name, value from meta where name in ('date', 'note') order by name" 'date|on\nnote|why' "a new stock keeps the columns of dates and notes"
ends 0 '' close --db kept.db --into kept5.db --date day --note ''
is kept5.db "select name, value from meta where name in ('date', 'note') order by name" 'date|day' "a new stock keeps the columns that close names"
ends 0 '' enter --quiet --db kept5.db kept3.csv
is kept5.db 'select date from movement where batch = 2' '2026-01-04' "a date by a column that close named"
# A database of an earlier program keeps no such columns, and is read as before
sql kept.db "delete from meta where name in ('date', 'note')"
ends 0 '' enter --quiet --db kept.db --again kept3.csv
is kept.db 'select date, note from movement order by movement desc limit 1' '|' "no dates of a stock that keeps no column of them"
printf 'article,change,on\nbolt,1,2026-01-31\n' > dated.csv
ends 0 '' enter --quiet --db begun.db --from stock.csv --date on dated.csv
is begun.db 'select batch, article, date from movement order by movement' '1|bolt|\n1|nut|\n1|washer|\n2|bolt|2026-01-31' "the stock at the beginning has no dates"
ends 0 '' verify --db begun.db
for change in "date = '2026-01-30' where movement = 4" "date = null where movement = 4" "date = '2026-01-31' where movement = 1" "note = '' where movement = 4" "note = 'x' where movement = 2"; do
  cp begun.db w.db
  sql w.db "update movement set $change"
  ends 1 "w.db: batch $([ "${change##*= }" = 4 ] && echo 2 || echo 1): not as it was entered: the scale, its row, or a row of its movements was changed" verify --db w.db
done

# Other forms of dates: a file is read in one, and what is kept and written is as 2026-02-28. A typed date has no other form
for row in 'DD.MM.YYYY 28.02.2026 29.02.2024 2026-02-28 02.30.2026' 'DD/MM/YYYY 28/02/2026 29/02/2024 02/28/2026 28.02.2026' 'MM/DD/YYYY 02/28/2026 02/29/2024 28/02/2026 02-28-2026'; do
  read -r form day leap bad other <<< "$row"
  rm -f form.db
  printf 'article,change,on\nbolt,3,%s\nnut,2,%s\n' "$day" "$leap" > form.csv
  ends 0 '' enter --quiet --db form.db --date on --date-form "$form" --from stock.csv --from-on 2024-02-28 form.csv
  is form.db 'select article, date from movement where batch = 2 order by movement' 'bolt|2026-02-28\nnut|2024-02-29' "dates of the form $form"
  is form.db "select name, value from meta where name not in ('hashbag_ledger', 'scale', 'columns', 'delimiter', 'mark')" 'date|on' "a form isn't kept: $form"
  ends 0 '' verify --db form.db
  ends 0 '' balance --db form.db --at 2024-02-29
  has ../out 'article,number\nbolt,10\nnut,42\nwasher,3\n' "the balance of a day after dates of the form $form"
  for word in "$bad" "$other" "$day " "$day${day:2:1}" "${day:1}" 31"${day:2}" ''; do
    printf 'article,change,on\nbolt,1,%s\n' "$word" > bad.csv
    ends 2 "$p: bad.csv:2: no date: \`$word\`; a date is written as $day (\`--date-form $form\`)" enter --quiet --db form.db --date-form "$form" bad.csv
  done
  ends 2 "$p: form.csv:2: no date: \`$day\`; a date is written as 2026-02-28 (\`--date-form YYYY-MM-DD\`)" enter --quiet --again --db form.db form.csv
  ends 2 "$p: --from-on takes a date, as 2026-02-28" enter --quiet --db form2.db --date-form "$form" --from stock.csv --from-on "$day" form.csv
done
ends 0 '' enter --quiet --db form.db --date-form YYYY-MM-DD --date on dated.csv
for words in "--date-form DD-MM-YYYY" "--date-form" "--date-form dd.mm.yyyy"; do
  # shellcheck disable=SC2086
  "$program" enter --quiet --db form.db $words dated.csv > ../out 2> ../err
  [ $? = 2 ] || fail "a form that isn't one: $words"
done

printf 'article,change\nbolt,9223372036854775807\nbolt,-9223372036854775807\nbolt,9223372036854775807\n' > moved.csv
ends 0 '' enter --quiet --db moved.db moved.csv
ends 5 "$p: moved.db: more than 18446744073709551615 moved up to that day" balance --db moved.db --at 9999-12-31

echo "dates: ok"
