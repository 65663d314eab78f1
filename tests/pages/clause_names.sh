#!/usr/bin/env bash
# One name, one direction: clauses of one name say their fact in one shape, in every crate. A shape is the clause with its facts blotted
# out, so that only the arrows and the outcome are left: `fact`, `P → fact`, `P → Err`, `Err → fact`, `Err ↔ fact`, `onErr fact`. What holds
# of a success (`OnOk`, `IfOk`) counts as what holds always, since one call can fail and the next can't.
#
# Prints each name of the list below that has more than one shape, with the clauses, and fails then.
#
# Usage: bash tests/pages/clause_names.sh [FOLDER with crates]
set -u
cd "${1:-"$(dirname "$0")/../.."}" || exit 1
names="too_many memory only_memory refused err takes present below none same before after len limit hasher"

# Each clause in one line: file, name, text.
clauses() {
  awk '
    function depth(text,   opened, closed, copy) {
      copy = text; opened = gsub(/{/, "", copy); copy = text; closed = gsub(/}/, "", copy)
      return opened - closed
    }
    !inside && match($0, /^ *ensures\*? [a-z_]+ \{/) {
      split($0, words, " "); name = words[2]; text = $0; sub(/^[^{]*\{/, "{", text); inside = 1; at = FILENAME ":" FNR
    }
    inside && at != FILENAME ":" FNR { line = $0; sub(/^ */, " ", line); text = text line }
    inside && depth(text) <= 0 {
      sub(/^\{ */, "", text); sub(/ *\}[^}]*$/, "", text); print at "\t" name "\t" text; inside = 0
    }
  ' crates/*/src/*.rt crates/*/src/*/*.rt
}

# Its shape.
shapes() {
  awk -F '\t' '
    # the place of a word outside of brackets, 0 if there is none
    function outside(text, word,   i, level, c, long) {
      long = length(word)
      for (i = 1; i <= length(text); i++) {
        c = substr(text, i, 1)
        if (c == "(" || c == "[" || c == "{") level++
        else if (c == ")" || c == "]" || c == "}") level--
        else if (level == 0 && substr(text, i, long) == word) return i
      }
      return 0
    }
    function bare(text,   inner) {
      sub(/^ +/, "", text); sub(/ +$/, "", text)
      while (text ~ /^\(.*\)$/) {
        inner = substr(text, 2, length(text) - 2)
        if (outside(text, " ") > 0) break
        text = inner; sub(/^ +/, "", text); sub(/ +$/, "", text)
      }
      return text
    }
    function shape(text,   at, first, rest, left) {
      text = bare(text)
      if (match(text, /^λ [a-z_]+\. /)) return shape(substr(text, RLENGTH + 1))
      if (match(text, /^(OnOk|IfOk|IfSome|OnSome) result /)) return shape(substr(text, RLENGTH + 1))
      if (match(text, /^(OnErr|IfErr) result /)) return "onErr " shape(substr(text, RLENGTH + 1))
      if (match(text, /^IfNone result /)) return "P → fact"
      # the total of the greater counts of two bags
      if (match(text, /^IfUnion T\.eq [a-z.]+ [a-z.]+ /)) return shape(substr(text, RLENGTH + 1))
      # what C gets: the bag behind a handle, and a number in the place of a result
      if (match(text, /^(If|Has)(Numbers|Texts) (\(Some [a-z.]+\)|[a-z.]+) /)) return shape(substr(text, RLENGTH + 1))
      if (is_code && match(text, /^result ≡ 0 → /)) return shape(substr(text, RLENGTH + 1))
      if (is_code && match(text, /^result ≢ 0 → /)) return "onErr " shape(substr(text, RLENGTH + 1))
      if (is_code && match(text, /^\(result ≡ [0-9]+\) ↔ /)) return "Err ↔ fact"
      at = outside(text, " ↔ ")
      left = outside(text, " → ")
      if (left && (!at || left < at)) {
        first = substr(text, 1, left - 1); rest = substr(text, left + length(" → "))
        if (first ~ /^\([A-Za-z_]+ : .*\)$/) {
          # what is said of all such values: the premise that says which of them is left out
          if (rest ~ /^[A-Z]/ && (at = outside(rest, " → "))) rest = substr(rest, at + length(" → "))
          return shape(rest)
        }
        rest = shape(rest)
        first = bare(first) ~ /^result ≡ Err / ? "Err" : "P"
        if (first == "P" && rest ~ /^P → /) return rest
        return first " → " rest
      }
      if (at) return (bare(substr(text, 1, at - 1)) ~ /^result ≡ Err / ? "Err" : "fact") " ↔ fact"
      return text ~ /^result ≡ Err / ? "Err" : "fact"
    }
    { is_code = $1 ~ /^crates\/hashbag_c\//; print $2 "\t" shape($3) "\t" $1 "\t" $3 }
  '
}

clauses | shapes | sort | awk -F '\t' -v names="$names" '
  BEGIN { split(names, list, " "); for (i in list) asked[list[i]] = 1 }
  !($1 in asked) { next }
  !(($1, $2) in seen) { seen[$1, $2] = 1; kinds[$1]++ }
  { lines[$1] = lines[$1] "  " $2 "    " $3 ": " $4 "\n"; all++ }
  END {
    for (name in kinds) if (kinds[name] > 1) { printf "%s has %d shapes:\n%s", name, kinds[name], lines[name]; bad++ }
    if (!all) { print "no clauses were found"; bad++ }
    exit bad > 0
  }
'
