#!/usr/bin/env bash
# bash tests/pages/words_of_pages.sh [PAGE]..: looks for house words, and for sentences above 40 words, in the prose of the pages: README.md, those of docs/,
# CHANGELOG.md, engines/README.md and the doc comments (`///` and `//!`) of all crates, also those of beside/, if no page is named. API.md is
# made from sources, so it isn't read. Fenced and indented code, code spans and the targets of links are no prose; a code span counts as one
# word. The cells of a table, the items of a list and headings are apart from one another.
# It prints a line for each, with the page and the line. The last line is 'words_of_pages: N house words, M long sentences', and the status is 1
# unless both are 0.
set -u
cd "$(dirname "$0")/../.." || exit 2

# What is allowed: a line each, with a page, a colon, and the text that may be on it. A house word within that text is passed over, and so is a
# long sentence that begins with it. A refusal is what hashbag_ledger reports, by its option `--refused` and its message `refused: ..`.
exceptions='
CHANGELOG.md: was refused
docs/use/WORDS.md: commonest
docs/use/LEDGER.md: is refused
docs/use/LEDGER.md: are refused
docs/use/LEDGER.md: were refused
docs/use/LEDGER.md: refuses
crates/hashbag_ledger_lib/src/ledger/booking.rt: were refused
crates/hashbag_ledger_lib/src/once.rt: were refused
crates/hashbag_ledger_lib/src/verifying.rt: is refused
'

if [ $# = 0 ]; then
  set -- README.md CHANGELOG.md engines/README.md
  while IFS= read -r page; do
    case $page in docs/use/API.md) ;; *) set -- "$@" "$page" ;; esac
  done < <({ find docs -name '*.md'; find crates/*/src beside/crates/*/src -name '*.rt' -o -name '*.rs'; } | LC_ALL=C sort)
fi
EXCEPTIONS=$exceptions LC_ALL=C exec awk '
  BEGIN {
    longest = 40
    house = "answers|answered|stands|tells|told|handed in|handed|so many|beside|goes along|gone along"
    house = house "|(is|are|was|were|be|been|isn.t|aren.t|never) refused|refuses|refuse|(take|takes|ask|asks|asked) (for )?memory|let go|lets go"
    # Doc comments may still have these.
    house_of_pages = words_like(house "|commonest|oftener|thousand million")
    house = words_like(house)
    lines_of_exceptions = split(ENVIRON["EXCEPTIONS"], exception, "\n")
  }

  # The pattern of these words.
  function words_like(list) {
    gsub(/ /, " +", list)
    return "(^|[^a-z0-9_])(" list ")([^a-z0-9_]|$)"
  }

  # Where the next run of backticks that is as long as this one begins, or 0.
  function closing(text, run, passed) {
    passed = 0
    while (match(text, /`+/)) {
      if (RLENGTH == length(run)) return passed + RSTART
      passed += RSTART + RLENGTH - 1
      text = substr(text, RSTART + RLENGTH)
    }
    return 0
  }

  # A text with a word for each code span, and without the targets of links. It has the same line ends.
  function prose(text, done, run, rest, at, ends) {
    done = ""
    while (match(text, /`+/)) {
      run = substr(text, RSTART, RLENGTH)
      rest = substr(text, RSTART + RLENGTH)
      done = done substr(text, 1, RSTART - 1)
      at = closing(rest, run)
      if (at) {
        ends = substr(rest, 1, at - 1)
        gsub(/[^\n]/, "", ends)
        done = done "`.." ends "`"
        text = substr(rest, at + length(run))
      } else {
        done = done run
        text = rest
      }
    }
    text = done text
    gsub(/\]\([^)]*\)/, "]", text)
    return text
  }

  # How many line ends a text has.
  function line_ends(text) {
    return gsub(/\n/, "", text)
  }

  # The text that may be on this page, by a line of exceptions; or nothing.
  function allowed(i, spare) {
    if (index(exception[i], page ":") != 1) return ""
    spare = substr(exception[i], length(page) + 2)
    sub(/^ +/, "", spare)
    return spare
  }

  # House words of a block that begins on this line.
  function look_for_words(first, text, flat, i, spared, at, passed, found, begin) {
    flat = text
    gsub(/[\n\t]/, " ", flat)
    for (i = 1; i <= lines_of_exceptions; i++) {
      spared = allowed(i)
      if (spared == "") continue
      while ((at = index(flat, spared))) {
        flat = substr(flat, 1, at - 1) sprintf("%" length(spared) "s", "") substr(flat, at + length(spared))
      }
    }
    flat = tolower(flat)
    passed = 0
    while (match(flat, page ~ /\.r[st]$/ ? house : house_of_pages)) {
      found = substr(flat, RSTART, RLENGTH)
      begin = RSTART
      flat = substr(flat, begin + RLENGTH - 1)
      passed += begin + length(found) - 2
      gsub(/^[^a-z0-9_]+|[^a-z0-9_]+$/, "", found)
      gsub(/ +/, " ", found)
      print page ":" first + line_ends(substr(text, 1, passed)) ": house word \047" found "\047"
      words++
    }
  }

  # One sentence, which begins on this line.
  function judge(line, sentence, parts, n, i, count) {
    line += match(sentence, /[^ \n\t]/) ? line_ends(substr(sentence, 1, RSTART)) : 0
    n = split(sentence, parts, /[ \n\t]+/)
    count = 0
    for (i = 1; i <= n; i++) if (parts[i] ~ /[A-Za-z0-9_`]/) count++
    if (count <= longest) return
    gsub(/[ \n\t]+/, " ", sentence)
    sub(/^ /, "", sentence)
    for (i = 1; i <= lines_of_exceptions; i++) if (allowed(i) != "" && index(sentence, allowed(i)) == 1) return
    print page ":" line ": " count " words: " substr(sentence, 1, 60) ".."
    long++
  }

  # Sentences of a block that begins on this line. One that seems to end before a small letter goes on.
  function look_for_sentences(line, text, sentence, rest) {
    sentence = ""
    while (match(text, /[.!?][)"\047*_]*([ \n\t]|$)/)) {
      sentence = sentence substr(text, 1, RSTART + RLENGTH - 1)
      rest = substr(text, RSTART + RLENGTH)
      text = rest
      sub(/^[ \n\t]+/, "", rest)
      if (rest ~ /^[a-z]/) continue
      judge(line, sentence)
      line += line_ends(sentence)
      sentence = ""
    }
    judge(line, sentence text)
  }

  function look(first, text) {
    look_for_words(first, text)
    look_for_sentences(first, text)
  }

  # The end of a paragraph, or of an item.
  function flush() {
    if (held != "") look(first_held, prose(held))
    held = ""
  }

  FNR == 1 {
    flush()
    page = FILENAME
    fence = ""
    code = 0
    empty = 1
    pages++
  }

  # Of code only doc comments are read.
  FILENAME ~ /\.r[st]$/ { if (!sub(/^ *\/\/[\/!] ?/, "")) $0 = "" }

  {
    line = $0
    bare = line
    sub(/^[ \t]+/, "", bare)
    mark = match(bare, /^(```+|~~~+)/) ? substr(bare, 1, RLENGTH) : ""
  }
  fence != "" {
    if (mark != "" && index(mark, fence) == 1) fence = ""
    empty = code = 0
    next
  }
  mark != "" {
    flush()
    fence = mark
    next
  }
  bare == "" {
    flush()
    empty = 1
    next
  }
  # A line of four spaces is code after an empty line, or after code.
  line ~ /^    / && (empty || code) && held == "" {
    code = 1
    empty = 0
    next
  }
  { empty = code = 0 }
  bare ~ /^\|/ {
    flush()
    # No pipe of a code span is left.
    cells = split(prose(line), cell, /\|/)
    for (i = 1; i <= cells; i++) look(FNR, cell[i])
    next
  }
  line ~ /^#/ {
    flush()
    look(FNR, prose(line))
    next
  }
  {
    if (bare ~ /^([-*+]|[0-9]+\.)[ \t]/) {
      flush()
      sub(/^([-*+]|[0-9]+\.)[ \t]+/, "", bare)
      line = bare
    }
    if (held == "") first_held = FNR
    held = held (held == "" ? "" : "\n") line
  }

  END {
    flush()
    print "words_of_pages: " words + 0 " house words, " long + 0 " long sentences"
    exit words || long || !pages
  }
' "$@"
