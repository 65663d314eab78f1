# Read before man.awk and library.awk: texts as roff.

# A text as it is, in roff.
function escaped(text) {
  gsub(/\\/, "\\e", text)
  gsub(/-/, "\\-", text)
  gsub(/'/, "\\(aq", text)
  gsub(/`/, "\\(ga", text)
  gsub(/\^/, "\\(ha", text)
  gsub(/~/, "\\(ti", text)
  return text
}

# A text in bold.
function bold(text) {
  return text == "" ? "" : "\\fB" escaped(text) "\\fR"
}

# A text in roff: what is in backticks is bold, without them.
function prose(text, done) {
  while (match(text, /`[^`]+`/)) {
    done = done escaped(substr(text, 1, RSTART - 1)) bold(substr(text, RSTART + 1, RLENGTH - 2))
    text = substr(text, RSTART + RLENGTH)
  }
  return done escaped(text)
}

# A text with a point at its end.
function sentence(text) {
  return text == "" || text ~ /[.:!?]$/ ? text : text "."
}

# Prints a line of text. A point at its beginning is none of a request.
function print_line(line) {
  print (line ~ /^\./ ? "\\&" : "") line
}

# Prints roff in lines of at most 78 bytes. A sentence begins a line.
function fill(text, many, words, i, line) {
  many = split(text, words, " ")
  for (i = 1; i <= many; i++) {
    if (line != "" && (length(line words[i]) > 77 || (line ~ /[.!?]$/ && words[i] ~ /^(\\fB)?[A-Z]/))) {
      print_line(line)
      line = ""
    }
    line = line (line == "" ? "" : " ") words[i]
  }
  if (line != "") print_line(line)
}
