# awk -v version=V -v date=D -f share/roff.awk -f share/library.awk FILE: writes the manual page of the library, in roff, from its header. A comment
# of the header is on the declaration after it; one that begins with `----` is a heading.

# Prints the paragraphs of the last comment.
function print_comment(i) {
  for (i = 1; i <= paragraphs; i++) {
    if (i > 1) print ".PP"
    fill(prose(paragraph[i]))
  }
}

# Prints the head of the page, and the first comment of the header, which begins with what the library is.
function print_head(i, about) {
  about = paragraph[1]
  sub(/^hashbag: /, "", about)
  sub(/\. Made by .*/, "", about)
  print ".TH HASHBAG 3 \"" date "\" \"hashbag " version "\""
  print ".nh\n.ad l\n.SH NAME"
  fill(escaped("hashbag - " about))
  print ".SH SYNOPSIS\n.nf"
  print bold("#include <hashbag.h>")
  print ""
  print bold("cc count.c $(pkg-config --cflags --libs hashbag) -Wl,-rpath,$(pkg-config --variable=libdir hashbag)")
  print ".fi\n.SH DESCRIPTION"
  for (i = 2; i <= paragraphs; i++) {
    if (i > 2) print (paragraph[i] ~ /^[0-9]+\. / ? ".TP\n" escaped(substr(paragraph[i], 1, index(paragraph[i], " ") - 1)) : ".PP")
    sub(/^[0-9]+\. /, "", paragraph[i])
    fill(prose(paragraph[i]))
  }
}

# Reads a line of a comment. A blank line, and an item of a list, begin a paragraph.
function read_comment(text, is_closed) {
  if (sub(/^ *\/\* ?/, "", text)) paragraphs = 0
  is_closed = sub(/ ?\*\/$/, "", text)
  sub(/^ *\* ?/, "", text)
  if (paragraphs == 0 || text ~ /^ +[0-9]+\. /) paragraph[++paragraphs] = ""
  sub(/^ +/, "", text)
  if (text == "" && paragraph[paragraphs] != "") paragraph[++paragraphs] = ""
  paragraph[paragraphs] = paragraph[paragraphs] (paragraph[paragraphs] == "" || text == "" ? "" : " ") text
  if (is_closed && paragraphs > 1 && paragraph[paragraphs] == "") paragraphs--
  is_inside = !is_closed
  if (is_closed) end_comment()
}

# A comment was read: the head, a heading, or what is said of what comes.
function end_comment() {
  if (!has_head) print_head()
  has_head = 1
  if (paragraph[1] ~ /^---- /) print ".SH " toupper(escaped(substr(paragraph[1], 6)))
}

is_inside || /^ *\/\*/ {
  read_comment($0)
  next
}

/^enum hashbag_error/ {
  print ".SH RETURN VALUES"
  print_comment()
  paragraphs = 0
}

/^    HASHBAG_[A-Z_]+ = [0-9]+,$/ {
  sub(/,$/, "", $3)
  print ".TP"
  print bold($1) " (" $3 ")"
  if (paragraphs) print_comment()
  else print "No error."
  paragraphs = 0
}

/^#define HASHBAG_VERSION/ {
  print ".TP"
  print bold($2)
  print_comment()
}

# A declaration, which may be of several lines.
/^[a-z].*[ *]hashbag_[a-z_]+\(/ { is_declaration = 1; print ".PP\n.nf" }
is_declaration {
  print bold($0)
  if ($0 !~ /;$/) next
  is_declaration = 0
  print ".fi\n.RS 4"
  print_comment()
  print ".RE"
}

END {
  print ".SH SEE ALSO"
  print bold("hashbag_words") "(1)"
}
