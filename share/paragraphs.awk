# Read before table.awk: reads the text after the options, and writes records. A record is a line of fields with a tab after each: the
# command (none: the program), a kind, and what the kind has:
#   about TEXT; usage TEXT; command NAME; default NAME: the command if none is named
#   argument, option: SHORT LONG VALUE TEXT DEFAULT VALUES; some are empty, and an argument has a VALUE alone
#   group HEADING: that of the options that follow
#   text TEXT: a paragraph; item NAMES TEXT: a line of a list
#   lead TEXT: what is said of examples, and example LINE for each of them
#   status NUMBER TEXT; after TEXT: what is said of several statuses
function put(kind, fields) {
  print command "\t" kind "\t" fields
}

# Where the last sentence of a text begins.
function last_sentence(text, at) {
  at = 1
  while (match(substr(text, at), /[.!?] [A-Z`]/)) at += RSTART + 1
  return at
}

# What `[WHAT: ..]` of the entry's text says. It is cut from the text.
function cut(what, at, rest, length_of_it) {
  at = index(text, "[" what ": ")
  if (!at) return ""
  rest = substr(text, at + length(what) + 3)
  length_of_it = index(rest, "]") - 1
  text = substr(text, 1, at - 1) substr(rest, length_of_it + 2)
  return substr(rest, 1, length_of_it)
}

# Writes an exit status for each number, and then what is said of several.
function put_statuses(said, at, after, many, parts, i) {
  at = match(said, /\. [A-Z]/)
  after = at ? substr(said, at + 2) : ""
  if (at) said = substr(said, 1, at)
  sub(/\.$/, "", said)
  while (match(said, /[;,] [0-9]+ /)) said = substr(said, 1, RSTART - 1) "\t" substr(said, RSTART + 2)
  many = split(said, parts, "\t")
  for (i = 1; i <= many; i++) {
    at = index(parts[i], " ")
    put("status", substr(parts[i], 1, at - 1) "\t" substr(parts[i], at + 1))
  }
  if (after != "") put("after", after)
}

# Writes the example at the end of a sentence, `: NAME ..`. It is cut from the paragraph, with its sentence.
function cut_example(at, from, rest, end) {
  at = index(paragraph, ": " name " ")
  from = last_sentence(substr(paragraph, 1, at))
  rest = substr(paragraph, at + 2)
  end = match(rest, /\. [A-Z]/)
  put("lead", substr(paragraph, from, at - from + 1))
  paragraph = substr(paragraph, 1, from - 1) (end ? substr(rest, end + 2) : "")
  if (end) rest = substr(rest, 1, end - 1)
  sub(/\.$/, "", rest)
  put("example", rest)
}

# Writes the command that a sentence names: `Without a command, A is meant`, A in backticks.
function put_named(said, names) {
  if (!match(said, /Without a command, `[a-z-]+` is meant/)) return
  split(substr(said, RSTART, RLENGTH), names, "`")
  put("default", names[2])
}

# Writes the paragraph that was read.
function end_paragraph() {
  if (sub(/^(Exit status|Status): /, "", paragraph)) {
    put_statuses(paragraph)
    paragraph = ""
  }
  put_named(paragraph)
  while (index(paragraph, ": " name " ")) cut_example()
  sub(/ +$/, "", paragraph)
  if (paragraph != "") put("text", paragraph)
  paragraph = ""
  in_example = 0
}

# Begins examples: a paragraph that ends with a colon leads to them, by its last sentence.
function begin_examples(from, lead) {
  if (in_example) return
  if (paragraph ~ /:$/) {
    from = last_sentence(paragraph)
    lead = substr(paragraph, from)
    paragraph = substr(paragraph, 1, from - 1)
  }
  end_paragraph()
  if (lead != "") {
    put_named(lead)
    put("lead", lead)
  }
  in_example = 1
}

# Reads a line that is indented: an example if it has the name of the program, or else a line of a list.
function read_indented(line, at, names) {
  sub(/^ +/, "", line)
  if (index(line, name)) begin_examples()
  if (in_example) {
    put("example", line)
    return
  }
  at = match(line, /  +/)
  if (!at) {
    paragraph = paragraph (paragraph == "" ? "" : " ") line
    return
  }
  names = substr(line, 1, at - 1)
  line = substr(line, at + RLENGTH)
  end_paragraph()
  put("item", names "\t" line)
}

# Reads a line of the text.
function read_after(line) {
  if (line == "") {
    end_paragraph()
  } else if (sub(/^Examples?: */, "", line)) {
    begin_examples()
    if (line != "") put("example", line)
  } else if (line ~ /^    /) {
    read_indented(line)
  } else {
    if (in_example) end_paragraph()
    paragraph = paragraph (paragraph == "" ? "" : " ") line
  }
}
