#!/usr/bin/env bash
# bash tests/programs/match.sh [PROGRAM]: runs the program `hashbag_match` on files, and compares what it writes, what it leaves unchanged, and its
# status with values found by hand. The program is proved and compiled first, unless it is named. The last line is 'match: ok' or says
# what is wrong.
. "$(dirname "$0")/lib.sh"
begin hashbag_match "$@"

# A list that agrees with itself, and one that doesn't agree. An article whose numbers are all 0 is listed.
printf 'article,number\nbolt,2\nnut,0\nbolt,3\n' > a.csv
printf '\357\273\277number,article\r\n4,bolt\r\n\r\n0,nut\r\n1,"5"" tube"' > b.csv
ends 0 "" a.csv a.csv --to csv
has ../out 'article,ordered,delivered,missing,surplus\nbolt,5,5,0,0\nnut,0,0,0,0\n' "a list beside itself"
ends 1 "" a.csv b.csv --to csv
has ../out 'article,ordered,delivered,missing,surplus\n"5"" tube",0,1,0,1\nbolt,5,4,1,0\nnut,0,0,0,0\n' "two lists"
"$program" - b.csv --only missing --to csv < a.csv > ../out
[ $? = 1 ] || fail "no status 1"
has ../out 'article,ordered,delivered,missing,surplus\nbolt,5,4,1,0\n' "a list on standard input"

# Quotes that are out of place: in the first file or the second, with the line of the quote
printf 'article,number,note\nbolt,5,\nnut,7,"12 inch\nbolt,2,\n' > open.csv
printf 'article,number\n"12" nut,1\n' > after.csv
printf 'article,number\nbolt,1\n12" nut,1\n' > stray.csv
ends 2 "hashbag_match: open.csv:3: quote never closed" open.csv a.csv
ends 2 "hashbag_match: open.csv:3: quote never closed" a.csv open.csv
has ../out "" "something is written after an open quote"
ends 2 "hashbag_match: after.csv:2: text after a closing quote" a.csv after.csv
ends 2 "hashbag_match: stray.csv:3: quote in a field without quotes" a.csv stray.csv

# Decimals, delimiters, several key columns, and names for each file
printf 'article,number\nflour,1.5\nflour,0.25\n' > kilos.csv
printf 'Artikel;Menge\nflour;1,70\n' > menge.csv
ends 2 'hashbag_match: kilos.csv:2: whole numbers only: `1.5`'$'\n''hashbag_match: kilos.csv:3: whole numbers only: `0.25`' kilos.csv a.csv
ends 2 'hashbag_match: kilos.csv:3: more than 1 decimals: `0.25`' kilos.csv a.csv --scale 1
ends 2 "$(printf "error: invalid value '10' for '--scale <D>'\n  [possible values: 0, 1, 2, 3, 4, 5, 6, 7, 8, 9]\n\nFor more information, try '--help'.")" kilos.csv a.csv --scale 10
ends 0 "" kilos.csv kilos.csv --scale 2 --to csv
has ../out 'article,ordered,delivered,missing,surplus\nflour,1.75,1.75,0.00,0.00\n' "decimals"
ends 0 "" menge.csv menge.csv -d ';' -s 2 --mark , -k Artikel --number Menge --to csv
has ../out 'Artikel;ordered;delivered;missing;surplus\nflour;1,70;1,70;0,00;0,00\n' "semicolons and commas"
printf 'article\tlot\tnumber\nbolt\tx\t1\nbolt\ty\t2\n' > lots.csv
printf 'sku\tbatch\tqty\nbolt\ty\t3\n' > qty.csv
ends 1 "" lots.csv qty.csv --delimiter tab --key article,lot --delivered-key sku,batch --delivered-number qty --to csv
has ../out 'article\tlot\tordered\tdelivered\tmissing\tsurplus\nbolt\tx\t1\t0\t1\t0\nbolt\ty\t2\t3\t0\t1\n' "two key columns"
for how in "--key lot,lot" "--key article,lot --delivered-key lot,lot"; do ends 2 'hashbag_match: key column `lot` is named twice' lots.csv lots.csv --delimiter tab $how; done

# Excel's "Unicode text" is UTF-16 with a mark, between tabs, and its CSV is Windows-1252, here between semicolons
printf 'Stück\tMenge\r\n„Größe“\t2\r\n€\t3\r\n' > text.utf8
printf 'Stück;Menge\r\n€;3\r\n„Größe“;2\r\n' > list.utf8
{ printf '\377\376'; iconv -f UTF-8 -t UTF-16LE text.utf8; } > text.txt
iconv -f UTF-8 -t CP1252 list.utf8 > list.csv
iconv -f UTF-8 -t UTF-16 text.utf8 > iconv.txt
rows='[{"Stück":"„Größe“","ordered":2,"delivered":2,"missing":0,"surplus":0},{"Stück":"€","ordered":3,"delivered":3,"missing":0,"surplus":0}]\n'
columns="-k Stück --number Menge --to json"
{ printf '\376\377'; iconv -f UTF-8 -t UTF-16BE text.utf8; } > big.txt
for file in text.txt iconv.txt big.txt; do
  ends 0 "" $file $file -d tab --encoding UTF-16 $columns
  has ../out "$rows" "UTF-16 with a mark: $file"
done
iconv -f UTF-8 -t UTF-16LE text.utf8 > little.txt
ends 0 "" little.txt big.txt -d tab --encoding UTF-16LE --delivered-encoding UTF-16BE $columns
has ../out "$rows" "UTF-16 by the names of its orders, with a mark and without one"
input=text.utf8 ends 0 "" - little.txt -d tab --encoding UTF-8 --delivered-encoding UTF-16LE $columns
has ../out "$rows" "UTF-8 on standard input, and UTF-16LE"
ends 0 "" list.csv list.csv -d ';' --encoding Windows-1252 $columns
has ../out "$rows" "Windows-1252"
tr '\t' ';' < text.utf8 > semicolons.csv
ends 0 "" semicolons.csv list.csv -d ';' --delivered-encoding Windows-1252 $columns
has ../out "$rows" "UTF-8 and Windows-1252"
ends 0 "" list.csv semicolons.csv -d ';' --encoding Windows-1252 --delivered-encoding UTF-8 $columns
has ../out "$rows" "Windows-1252 and UTF-8"
ends 2 'hashbag_match: text.txt:1: UTF-16; `--encoding UTF-16` reads it' text.txt text.txt
# the second file has an option of its own, and the mark of UTF-8 isn't read in an encoding of one byte a character
printf 'article,number\nbolt,1\n' > plain.csv && iconv -t UTF-16 plain.csv > wide.csv && printf 'Gr\366\337e,number\nbolt,1\n' > head.csv
ends 2 'hashbag_match: wide.csv:1: UTF-16; `--delivered-encoding UTF-16` reads it' plain.csv wide.csv
ends 2 'hashbag_match: wide.csv:1: UTF-16; `--encoding UTF-16` reads it' wide.csv plain.csv
ends 2 'hashbag_match: head.csv:1: no column `article`; there are: one that is not UTF-8, `number`; if it is Windows-1252, `--delivered-encoding Windows-1252` reads it' plain.csv head.csv
{ printf '\357\273\277'; cat plain.csv; } > marked.csv
ends 2 'hashbag_match: marked.csv:1: UTF-8, by its byte order mark; `--encoding UTF-8` reads it' marked.csv plain.csv --encoding Windows-1252
ends 2 'hashbag_match: marked.csv:1: UTF-8, by its byte order mark; `--delivered-encoding UTF-8` reads it' plain.csv marked.csv --encoding Latin-1
ends 0 "" marked.csv plain.csv
printf 'article,number\n\344,1\n' > latin.csv
ends 2 'hashbag_match: latin.csv:2: column `article` is not UTF-8; if it is Windows-1252, `--delivered-encoding Windows-1252`' plain.csv latin.csv
rm plain.csv wide.csv head.csv marked.csv
ends 2 'hashbag_match: latin.csv:2: column `article` is not UTF-8; if it is Windows-1252, `--encoding Windows-1252`' latin.csv latin.csv
ends 0 "" latin.csv latin.csv --encoding Latin-1
printf 'article,number\nbolt,1\n\220,1\n' > undefined.csv
ends 2 "hashbag_match: undefined.csv:3: not Windows-1252: byte 0x90" a.csv undefined.csv --encoding Windows-1252
ends 2 "hashbag_match: undefined.csv:3: not Windows-1252: byte 0x90" undefined.csv a.csv --max-errors 0 --encoding Windows-1252
ends 2 "hashbag_match: a.csv:1: not UTF-16: no byte order mark; UTF-16LE and UTF-16BE need none" a.csv a.csv --encoding UTF-16
has ../out "" "something is written of what isn't UTF-16"
# half a pair, and half a unit, in the third line
printf 'a\0\n\0\n\0\075\330b\0' > half.txt
ends 2 "hashbag_match: half.txt:3: not UTF-16: half a surrogate pair" half.txt half.txt --encoding UTF-16LE
printf 'a\0\n\0\n\0b' > odd.txt
ends 2 "hashbag_match: odd.txt:3: not UTF-16: an odd number of bytes" a.csv odd.txt --delivered-encoding UTF-16LE
for how in "--encoding UTF-7" "--delivered-encoding latin1"; do
  "$program" a.csv a.csv $how > ../out 2> ../err
  [ $? = 2 ] && [ ! -s ../out ] && grep -q 'possible values: UTF-8, UTF-16, UTF-16LE, UTF-16BE, Latin-1, Windows-1252' ../err || fail "an encoding without a name: $how"
done
rm big.txt half.txt iconv.txt latin.csv list.csv list.utf8 little.txt odd.txt semicolons.csv text.txt text.utf8 undefined.csv

# Lists without numbers: each line counts as one, also if there is a column of numbers
printf 'article\nbolt\nnut\n\nbolt\n' > names.csv
printf 'sku,number\nnut,7\nbolt,none\ntube,\n' > boxes.csv
ends 1 "" names.csv boxes.csv --each-line --delivered-key sku --to csv
has ../out 'article,ordered,delivered,missing,surplus\nbolt,2,1,1,0\nnut,1,1,0,0\ntube,0,1,0,1\n' "lists without numbers"
ends 0 "" names.csv names.csv --each-line --mark , --to json
has ../out '[{"article":"bolt","ordered":2,"delivered":2,"missing":0,"surplus":0},{"article":"nut","ordered":1,"delivered":1,"missing":0,"surplus":0}]\n' "a list without numbers as JSON"
ends 2 'hashbag_match: names.csv:1: no column `number`; there are: `article`' names.csv boxes.csv
# a plain list, whose first line is taken as its header: the option that reads it is named
printf 'bolt\nnut\nbolt\n' > list.txt
ends 2 'hashbag_match: list.txt:1: no column `article`; there are: `bolt`; if line 1 is no header, `--no-header` reads it' list.txt names.csv --each-line
ends 2 'hashbag_match: list.txt:1: no column `article`; there are: `bolt`; if line 1 is no header, `--no-header` reads it' names.csv list.txt --each-line --max-errors 0
ends 2 'hashbag_match: list.txt:1: no column `article`; there are: `bolt`' list.txt names.csv
{ echo article && cat list.txt; } > headed.txt
ends 0 "" headed.txt names.csv --each-line
# without a header no line is lost, also none with a byte order mark, and columns are named by their places
printf '\357\273\277nut\nbolt\n' > other.txt
ends 1 "" list.txt other.txt --each-line --no-header --to csv
has ../out '1,ordered,delivered,missing,surplus\nbolt,2,1,1,0\nnut,1,1,0,0\n' "lists without a header"
printf '7,x,bolt\n\n2,y,nut\n1,z,bolt\n' > places.csv
ends 0 "" places.csv places.csv --no-header --key 3 --number 1 --carry 2 --to csv
has ../out '3,2,ordered,delivered,missing,surplus\nbolt,x,8,8,0,0\nnut,y,2,2,0,0\n' "columns by their places"
printf 'bolt,8\nnut,2\n' > pairs.csv
ends 0 "" pairs.csv places.csv --no-header --delivered-key 3 --delivered-number 1
: > empty.txt
ends 1 "" list.txt empty.txt --each-line --no-header --to csv
has ../out '1,ordered,delivered,missing,surplus\nbolt,2,0,2,0\nnut,1,0,1,0\n' "a list without a line"
ends 0 "" empty.txt empty.txt --no-header --carry 9
ends 2 'hashbag_match: empty.txt:1: no header' empty.txt list.txt
ends 2 'hashbag_match: pairs.csv:1: no column `3`; there are: `1`, `2`' pairs.csv pairs.csv --no-header --key 3
ends 2 'hashbag_match: pairs.csv:1: no column `article`; there are: `1`, `2`' pairs.csv pairs.csv --no-header --key article --each-line
printf 'bolt,8\nnut\nnail,"x\n' > short.txt
ends 2 'hashbag_match: short.txt:2: 2 fields wanted, 1 found'$'\n''hashbag_match: short.txt:3: quote never closed' short.txt pairs.csv --no-header
ends 1 "" list.txt pairs.csv --each-line --no-header --only missing --to csv
rm list.txt headed.txt other.txt places.csv pairs.csv empty.txt short.txt

# An empty field of numbers is 0, if that is asked for; one of spaces isn't empty
printf 'article,number\nbolt,\nnut,""\nbolt,2\n' > blank.csv
printf 'article,number\nnut, \n' > space.csv
ends 0 "" blank.csv blank.csv --blank-is-zero --to csv
has ../out 'article,ordered,delivered,missing,surplus\nbolt,2,2,0,0\nnut,0,0,0,0\n' "empty numbers"
ends 0 "" blank.csv blank.csv --blank-is-zero --scale 2 --only missing --to json
has ../out '[]\n' "empty numbers at a scale"
ends 2 $'hashbag_match: blank.csv:2: no number: ``; `--blank-is-zero` reads it as 0\nhashbag_match: blank.csv:3: no number: ``; `--blank-is-zero` reads it as 0' blank.csv blank.csv
ends 2 'hashbag_match: space.csv:2: no number: ` `' blank.csv space.csv --blank-is-zero

# A record with fewer or more fields than the header is a bad line
printf 'article,number,note\nnut,1\nbolt\n' > short.csv
printf 'article,number,note\nnut,1,x,y\n' > long.csv
ends 2 $'hashbag_match: short.csv:2: 3 fields wanted, 2 found\nhashbag_match: short.csv:3: 3 fields wanted, 1 found' short.csv short.csv --blank-is-zero
ends 2 'hashbag_match: long.csv:2: 3 fields wanted, 4 found' long.csv long.csv --each-line

# All bad lines are named, up to as many as are asked for, of the first file that has one; a total that is too large is named alone
printf 'article,number\nbolt,x\nnut,1\ntube\nbolt,2,3\n"pin" b,1\nnut,-1\n' > bads.csv
line2='hashbag_match: bads.csv:2: no number: `x`'
line4='hashbag_match: bads.csv:4: 2 fields wanted, 1 found'
line5='hashbag_match: bads.csv:5: 2 fields wanted, 3 found'
line6='hashbag_match: bads.csv:6: text after a closing quote'
line7='hashbag_match: bads.csv:7: no number: `-1`'
ends 2 "$line2"$'\n'"$line4"$'\n'"$line5"$'\n'"$line6"$'\n'"$line7" bads.csv bads.csv
ends 2 "$line2" bads.csv bads.csv --max-errors 1
ends 2 "$line2"$'\n'"$line4"$'\n''hashbag_match: bads.csv: no more than 2 bad lines are named; `--max-errors 0` names all' bads.csv bads.csv --max-errors 2
ends 2 "$line2"$'\n'"$line4"$'\n'"$line5"$'\n'"$line6"$'\n'"$line7" a.csv bads.csv --max-errors 0
has ../out "" "something is written after bad lines"
ends 2 "$line4"$'\n'"$line5"$'\n'"$line6" bads.csv a.csv --max-errors 10 --each-line
ends 2 "hashbag_match: open.csv:3: quote never closed" open.csv a.csv --max-errors 10
ends 2 'hashbag_match: names.csv:1: no column `number`; there are: `article`' names.csv boxes.csv --max-errors 10

# Columns that are carried along have the text of the first line with the article, first of those that were ordered
printf 'article,number,price,text\nbolt,2,1.50,"big, M4"\nnut,0,0.10,\nbolt,3,9.99,other\n' > prices.csv
printf 'article,number,text\nbolt,5,later\nnut,0,later\ntube,1,new\ntube,0,newer\n' > texts.csv
printf 'article,number,text\nbolt,1,x\nnut,1,\377\n' > latin.csv
ends 1 "" prices.csv texts.csv --carry text,price --to csv
has ../out 'article,text,price,ordered,delivered,missing,surplus\nbolt,"big, M4",1.50,5,5,0,0\nnut,,0.10,0,0,0,0\ntube,new,,0,1,0,1\n' "columns that are carried along"
ends 1 "" prices.csv texts.csv --carry price,text --to json --only surplus --key article --scale 1
has ../out '[{"article":"tube","price":"","text":"new","ordered":"0.0","delivered":"1.0","missing":"0.0","surplus":"1.0"}]\n' "columns that are carried along in JSON"
ends 1 "" prices.csv texts.csv --carry text --only differing
has ../out 'ARTICLE  TEXT  ORDERED  DELIVERED  MISSING  SURPLUS\ntube     new         0          1        0        1\n1 article differs: 0 missing, 1 surplus\n' "columns that are carried along in a table"
ends 0 "" latin.csv latin.csv --to csv
ends 2 'hashbag_match: latin.csv:3: column `text` is not UTF-8; if it is Windows-1252, `--encoding Windows-1252`' latin.csv texts.csv --carry text
ends 2 'hashbag_match: texts.csv:1: no column `price`; there are: `article`, `number`, `text`' texts.csv prices.csv --carry price
ends 2 'hashbag_match: carried column `text` is named twice, or is a key column' prices.csv texts.csv --carry text,text
ends 2 'hashbag_match: carried column `article` is named twice, or is a key column' prices.csv texts.csv --carry article
ends 2 "hashbag_match: a carried column can't have the name \`missing\`, which is a column of the output" prices.csv texts.csv --carry missing

# Articles that differ only in case, white space at the ends, or normal form are named, and the status is as without
printf 'article,number\nBolt,1\nbolt ,2\nnut,1\nCaf\303\251,1\n' > near.csv
printf 'article,number\nbolt,1\nnut,1\nCafe\314\201,1\n' > nearer.csv
near=' differ only in case, white space at the ends, or normal form'
ends 1 "$(printf 'hashbag_match: `Cafe\314\201` and `Caf\303\251`%s\nhashbag_match: `Bolt` and `bolt`%s\nhashbag_match: `Bolt` and `bolt `%s' "$near" "$near" "$near")" near.csv nearer.csv
ends 1 "" near.csv nearer.csv --quiet --only missing --to csv
has ../out 'article,ordered,delivered,missing,surplus\nBolt,1,0,1,0\nCaf\303\251,1,0,1,0\nbolt ,2,0,2,0\n' "near articles"
ends 1 "$(printf 'hashbag_match: `cafe\314\201` and `caf\303\251`%s' "$near")" near.csv nearer.csv --fold --trim
for i in 1 2 3 4 5 6 7 8 9 10 11 12; do printf 'a%d,1\nA%d,1\n' "$i" "$i"; done | sed '1i article,number' > pairs.csv
"$program" pairs.csv pairs.csv > ../out 2> ../err
[ $? = 0 ] && [ "$(grep -c 'differ only' ../err)" = 10 ] || { cat ../err; fail "not ten pairs"; }
[ "$(tail -n 1 ../err)" = 'hashbag_match: no more articles are named that are nearly the same; `--trim` and `--fold` compare them without white space and case' ] || fail "that no more pairs are named isn't said"
ends 0 "" pairs.csv pairs.csv -q

# Marks between groups of three digits, or none in a number; groups of another length are bad lines
printf 'article;number\nnut;1.000,5\nnut;12.345.678\nbolt;1000\n' > grouped.csv
printf 'article;number\nnut;12346678,50\nbolt;1.000,00\n' > ungrouped.csv
printf 'article;number\nnut;1.000\nbolt;1.00,5\n' > twos.csv
printf 'article;number\nnut;1 000\nbolt;.100\n' > front.csv
ends 0 "" grouped.csv ungrouped.csv --delimiter ';' --mark , --scale 2 --group-mark . --to csv
has ../out 'article;ordered;delivered;missing;surplus\nbolt;1000,00;1000,00;0,00;0,00\nnut;12346678,50;12346678,50;0,00;0,00\n' "numbers in groups"
ends 2 $'hashbag_match: grouped.csv:2: no number: `1.000,5`; `--group-mark .` reads groups of digits\nhashbag_match: grouped.csv:3: no number: `12.345.678`; `--group-mark .` reads groups of digits' grouped.csv ungrouped.csv --delimiter ';' --mark , --scale 2
ends 2 'hashbag_match: twos.csv:3: groups of three digits wanted: `1.00,5`' twos.csv twos.csv --delimiter ';' --mark , --scale 2 --group-mark .
ends 2 $'hashbag_match: front.csv:2: no number: `1 000`\nhashbag_match: front.csv:3: groups of three digits wanted: `.100`' front.csv front.csv --delimiter ';' --mark , --group-mark .
ends 2 'hashbag_match: front.csv:3: no number: `.100`' front.csv front.csv --delimiter ';' --mark , --group-mark ' '
ends 2 "hashbag_match: front.csv:2: no number: \`1 000\`; \`--group-mark space\` reads groups of digits"$'\n'"hashbag_match: front.csv:3: no number: \`.100\`; \`--group-mark .\` reads groups of digits" front.csv front.csv --delimiter ';' --mark ,
# No-break spaces, U+00A0 and U+202F, and a space beside them; with --group-mark space they are no marks
nbsp=$'\302\240' narrow=$'\342\200\257' hint='; `--group-mark nbsp` reads groups of digits' wanted='groups of three digits wanted'
printf 'article;number\nnut;%s\nnut;%s\nbolt;%s\nnail;1 000\n' "1${nbsp}234,5" "12${narrow}345${narrow}678" "1${nbsp}000${narrow}000 000" > breaks.csv
printf 'article;number\nnut;12346912,50\nbolt;1000000000\nnail;1000,00\n' > digits.csv
printf 'article;number\nnut;%s\nbolt;%s\nnail;%s\npin;%s\n' "1${nbsp}00" "1${narrow}0000" "${nbsp}100" "1,000${nbsp}000" > few.csv
ends 0 "" breaks.csv digits.csv --delimiter ';' --mark , --scale 2 --group-mark nbsp --to csv
has ../out 'article;ordered;delivered;missing;surplus\nbolt;1000000000,00;1000000000,00;0,00;0,00\nnail;1000,00;1000,00;0,00;0,00\nnut;12346912,50;12346912,50;0,00;0,00\n' "no-break spaces between groups"
line2="hashbag_match: few.csv:2: $wanted: \`1${nbsp}00\`"
line3="hashbag_match: few.csv:3: $wanted: \`1${narrow}0000\`"
line4="hashbag_match: few.csv:4: $wanted: \`${nbsp}100\`"
line5="hashbag_match: few.csv:5: no number: \`1,000${nbsp}000\`"
ends 2 "$line2"$'\n'"$line3"$'\n'"$line4"$'\n'"$line5" few.csv few.csv --delimiter ';' --mark , --scale 3 --group-mark nbsp
line2="hashbag_match: breaks.csv:2: no number: \`1${nbsp}234,5\`$hint"
line3="hashbag_match: breaks.csv:3: no number: \`12${narrow}345${narrow}678\`$hint"
line4="hashbag_match: breaks.csv:4: no number: \`1${nbsp}000${narrow}000 000\`$hint"
line5='hashbag_match: breaks.csv:5: no number: `1 000`; `--group-mark space` reads groups of digits'
ends 2 "$line2"$'\n'"$line3"$'\n'"$line4"$'\n'"$line5" breaks.csv digits.csv --delimiter ';' --mark , --scale 2
line4="hashbag_match: breaks.csv:4: $wanted: \`1${nbsp}000${narrow}000 000\`"
ends 2 "$line2"$'\n'"$line3"$'\n'"$line4" breaks.csv digits.csv --delimiter ';' --mark , --scale 2 --group-mark space
rm breaks.csv digits.csv few.csv
ends 2 'hashbag_match: --group-mark is the mark before decimals' a.csv b.csv --group-mark .
ends 2 'hashbag_match: --group-mark is the delimiter' a.csv b.csv --group-mark ,

# The second list has a delimiter and a mark of its own; what is written has those of the first
printf 'article\tnumber\nnut\t1000.50\nbolt\t2.00\n' > english.txt
printf 'article;number\nnut;1000,5\nbolt;2\n' > german.csv
ends 0 "" german.csv english.txt --delimiter ';' --delivered-delimiter tab --mark , --delivered-mark . --scale 2 --to csv
has ../out 'article;ordered;delivered;missing;surplus\nbolt;2,00;2,00;0,00;0,00\nnut;1000,50;1000,50;0,00;0,00\n' "lists with two delimiters and marks"
ends 2 "hashbag_match: english.txt:1: no column \`article\`; there are: \`article\\tnumber\`; is the delimiter \`tab\`?" german.csv english.txt --delimiter ';' --mark , --scale 2
ends 2 'hashbag_match: --group-mark is the mark before decimals' german.csv english.txt --delimiter ';' --delivered-delimiter tab --mark , --delivered-mark . --group-mark .
rm german.csv english.txt

# Spaces and tabs at both ends of key fields are removed: nothing else is, neither in between nor from the names of columns
printf 'article ,lot,number\n bolt  M4\t,L1,1\nbolt  M4, L1,2\n"nut\n",\t,4\n' > spaced.csv
printf 'article ,lot,number\nbolt  M4,L1,3\n"nut\n ",,4\n' > plain.csv
ends 0 "" spaced.csv plain.csv --trim --key 'article ,lot' --to csv
has ../out 'article ,lot,ordered,delivered,missing,surplus\nbolt  M4,L1,3,3,0,0\n"nut\n",,4,4,0,0\n' "trimmed fields"
ends 1 "" spaced.csv plain.csv --key 'article ,lot' --to csv --only missing -q
has ../out 'article ,lot,ordered,delivered,missing,surplus\n bolt  M4\t,L1,1,0,1,0\nbolt  M4, L1,2,0,2,0\n"nut\n",\t,4,0,4,0\n' "fields as they are"
ends 0 "" spaced.csv spaced.csv --trim --each-line --key lot --to json
has ../out '[{"lot":"","ordered":1,"delivered":1,"missing":0,"surplus":0},{"lot":"L1","ordered":2,"delivered":2,"missing":0,"surplus":0}]\n' "a trimmed column"
ends 2 'hashbag_match: spaced.csv:1: no column `article`; there are: `article `, `lot`, `number`; is it `article `?' spaced.csv plain.csv --trim

# Upper and lower case as one, by full case folding, which makes ss of a sharp s; not in the names of columns
printf 'Sku,number\nStra\303\237e,1\n STRASSE,2\n\316\243\317\202,1\n' > cased.csv
printf 'Sku,number\nstrasse,3\n\317\203\316\243,1\n' > lower.csv
ends 0 "" cased.csv lower.csv --key Sku --fold --trim --to csv
has ../out 'Sku,ordered,delivered,missing,surplus\nstrasse,3,3,0,0\n\317\203\317\203,1,1,0,0\n' "folded fields"
ends 1 "" cased.csv lower.csv --key Sku --fold --only surplus --to csv -q
has ../out 'Sku,ordered,delivered,missing,surplus\nstrasse,1,3,0,2\n' "folded fields that aren't trimmed"
ends 1 "" cased.csv lower.csv --key Sku --trim --only surplus --to csv -q
has ../out 'Sku,ordered,delivered,missing,surplus\nstrasse,0,3,0,3\n\317\203\316\243,0,1,0,1\n' "trimmed fields that aren't folded"
ends 2 'hashbag_match: cased.csv:1: no column `sku`; there are: `Sku`, `number`; is it `Sku`?' cased.csv lower.csv --key sku --fold
# The nearest name is named, and not the first that is near
printf 'Preis1,Preis2,number\n' > preise.csv
ends 2 'hashbag_match: preise.csv:1: no column `Pries2`; there are: `Preis1`, `Preis2`, `number`; is it `Preis2`?' preise.csv preise.csv --key Pries2
rm preise.csv

# Outputs: whole or not at all, and no input
printf 'old\n' > kept
ends 2 "hashbag_match: open.csv:3: quote never closed" a.csv open.csv -o kept
has kept 'old\n' "an output after a bad line"
ends 1 "" a.csv b.csv --to csv --only surplus -o kept
has ../out "" "a table on standard output beside -o"
has kept 'article,ordered,delivered,missing,surplus\n"5"" tube",0,1,0,1\n' "an output over another file"
ln a.csv hard.csv
for name in a.csv ./a.csv "$PWD/a.csv" hard.csv; do
  ends 2 "hashbag_match: the output is one of the inputs" a.csv b.csv -o "$name"
  ends 2 "hashbag_match: the output is one of the inputs" b.csv a.csv -o "$name"
done
ends 4 "hashbag_match: no/new.csv: No such file or directory (os error 2)" a.csv b.csv -o no/new.csv
ends 4 "hashbag_match: none.csv: No such file or directory (os error 2)" a.csv none.csv -o new.csv
ends 4 "hashbag_match: /dev/full: No space left on device (os error 28)" a.csv b.csv -o /dev/full
"$program" a.csv b.csv > /dev/full 2> ../err
[ $? = 4 ] || fail "a full disk at standard output"
files a.csv after.csv b.csv bads.csv blank.csv boxes.csv cased.csv front.csv grouped.csv hard.csv kept kilos.csv latin.csv long.csv lots.csv lower.csv menge.csv names.csv near.csv nearer.csv open.csv pairs.csv plain.csv prices.csv qty.csv short.csv space.csv spaced.csv stray.csv texts.csv twos.csv ungrouped.csv

# A file that can be opened but not read is no end of a file; nobody reads the output any more
mkdir folder
ends 4 "hashbag_match: folder: Is a directory (os error 21)" folder b.csv
ends 4 "hashbag_match: folder: Is a directory (os error 21)" a.csv folder
has ../out "" "something is written after a failed read"
input=folder ends 4 "hashbag_match: -: Is a directory (os error 21)" a.csv -
rmdir folder
mkfifo pipe && exec 6<> pipe 7> pipe 6<&- && rm pipe
"$program" a.csv b.csv >&7 2> ../err
[ $? = 4 ] && [ ! -s ../err ] || { cat ../err; fail "a closed pipe is said, or has another status than 4"; }
"$program" --help >&7 2> ../err
[ $? = 4 ] && [ ! -s ../err ] || { cat ../err; fail "a closed pipe under --help"; }
exec 7>&-

# Totals and arguments
printf 'article,number\nbolt,18446744073709551615\nnut,1\n' > many.csv
ends 5 "hashbag_match: many.csv:3: total past 18446744073709551615" a.csv many.csv
for words in "" "a.csv" "- -" "a.csv b.csv --scale 10" "a.csv b.csv --delimiter x" "a.csv b.csv --key article,article" "a.csv b.csv --only some" "a.csv b.csv --none" \
  "a.csv b.csv --each-line --number number" "a.csv b.csv --each-line --delivered-number number" "a.csv b.csv --scale 0 --each-line" "a.csv b.csv --each-line --blank-is-zero" "a.csv b.csv --each-line --group-mark ." "a.csv b.csv --group-mark 0" "a.csv b.csv --group-mark -" \
  "a.csv b.csv --max-errors x" "a.csv b.csv --max-errors -1" "a.csv b.csv --progress --quiet"; do
  # shellcheck disable=SC2086
  "$program" $words > ../out 2> ../err < /dev/null
  [ $? = 2 ] && [ ! -s ../out ] && [ -s ../err ] || fail "bad arguments: $words"
done
# No text: a NUL byte, and gzip
printf 'article,number\nbolt,1\nnut\0,1\n' > nul.csv
ends 2 'hashbag_match: nul.csv:3: a NUL byte; if it is UTF-16, `--delivered-encoding UTF-16LE` reads it' a.csv nul.csv
gzip -c a.csv > packed.csv
ends 2 'hashbag_match: packed.csv:1: gzip; `zcat` makes it text' packed.csv a.csv

# Progress: each file that was read is a line, which says how much of both that is, and that the work goes on, but not with --quiet. Of large files a terminal shows it at once, and it is erased at the end.
"$program" a.csv b.csv --progress --only missing > ../out 2> ../err
has ../err 'a.csv: 0.0 MB of 0.0 MB, 42%% read, working on it\nb.csv: 0.0 MB of 0.0 MB, 100%% read, working on it\n' "progress"
{ printf 'article,number\n' && head -c 68000000 /dev/zero | tr '\0' a && printf ',1\n'; } > large.csv
shown=$(script -qec "'$program' large.csv large.csv --only missing --to csv" /dev/null < /dev/null | tr '\r\033' '<>')
# a slow machine shows how far it has read, too
[ "$(sed 's/<>\[K[^<]* left//g' <<< "$shown")" = '<>[Klarge.csv: 68.0 MB of 136.0 MB, 50% read, working on it<>[Klarge.csv: 136.0 MB of 136.0 MB, 100% read, working on it<>[Karticle,ordered,delivered,missing,surplus<' ] || fail "progress on a terminal: $shown"
[ "$(script -qec "'$program' large.csv large.csv --quiet --only missing --to csv" /dev/null < /dev/null | tr -d '\r')" = article,ordered,delivered,missing,surplus ] || fail "progress with --quiet"
rm large.csv

for option in --version -V; do
  ends 0 "" $option
  grep -Eqx 'hashbag_match 0\.1\.13-[0-9]+' ../out || fail "no version"
done
ends 0 "" --help
for heading in Columns: 'Numbers and fields:' Output:; do grep -qx "$heading" ../out || fail "no heading $heading in the help"; done
for name in --key --number --delivered-key --delivered-number --each-line --no-header --blank-is-zero --group-mark --trim --fold --delimiter --scale --mark --delivered-delimiter --delivered-mark --encoding --delivered-encoding --only --to --carry --max-errors --progress --quiet --output; do
  grep -q -e "$name" ../out || fail "no $name in the help"
done
echo "match: ok"
