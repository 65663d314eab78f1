# awk -v name=NAME -v page=COMMAND -v version=V -v date=D -v others=NAMES -f share/records.awk -f share/roff.awk -f share/man.awk: writes the manual
# page of a program (COMMAND is empty) or of one of its commands, in roff, from the records of paragraphs.awk. OTHERS are the programs that it names
# at its end.

# A word of a usage: a name that is to be replaced is italic, any other bold; brackets and dots are neither.
function styled(word, before, after) {
  if (sub(/\.\.\.$/, "", word)) after = "..."
  if (word ~ /^\[.*\]$/) {
    before = "["
    after = "]" after
    word = substr(word, 2, length(word) - 2)
  }
  if (word ~ /^<.+>$/) word = substr(word, 2, length(word) - 2)
  if (word ~ /^[A-Z]/) return before "\\fI" escaped(word) "\\fR" after
  return before (word ~ /^[a-z-]/ ? bold(word) : escaped(word)) after
}

# A usage, or the value of an option, in roff.
function styled_all(text, many, words, i, done) {
  many = split(text, words, " ")
  for (i = 1; i <= many; i++) done = done (i == 1 ? "" : " ") styled(words[i])
  return done
}

# The page of a command, or of the program.
function page_of(command) {
  return name (command == "" ? "" : "-" command)
}

# Prints a heading before the first record of a section.
function heading(text) {
  if (text != section) print ".SH " text
  is_begun = text == section
  section = text
}

# Begins a paragraph. The first one of a section begins with its heading.
function begin_paragraph() {
  if (is_begun) print ".PP"
  is_begun = 1
}

# Prints the usages of a command, each on a line.
function print_usages(command, i, usage) {
  for (i = 1; i <= records; i++) {
    if (of[i] != command || kind[i] != "usage") continue
    usage = field[i, 1]
    if (command != "" && command == fallback) sub(" " command, " [" command "]", usage)
    if (section == "usages") print ".br"
    section = "usages"
    print styled_all(usage)
  }
}

# A value: in quotes if it is punctuation alone.
function value_of(text) {
  return text ~ /[A-Za-z0-9]/ ? bold(text) : "\\(aq" bold(text) "\\(aq"
}

# Prints what a record of an argument or of an option says.
function print_entry(i, names, values, many, parts, k) {
  names = bold(field[i, 1]) (field[i, 1] != "" && field[i, 2] != "" ? ", " : "") bold(field[i, 2])
  print ".TP"
  print names (names != "" && field[i, 3] != "" ? " " : "") styled_all(field[i, 3])
  fill(prose(sentence(field[i, 4])))
  many = split(field[i, 6], parts, ", ")
  for (k = 1; k <= many; k++) values = values (k == 1 ? "" : ", ") value_of(parts[k])
  if (many) fill("Values: " values ".")
  if (field[i, 5] != "") fill("Default: " value_of(field[i, 5]) ".")
}

# Prints the records of a kind under a heading. Options are in groups.
function print_kind(command, wanted, title, i) {
  for (i = 1; i <= records; i++) {
    if (of[i] == command && kind[i] == "group" && wanted == "option") print ".SS " escaped(field[i, 1])
    if (of[i] != command || kind[i] != wanted) continue
    heading(title)
    print_entry(i)
  }
}

# Prints what the command does: its first line, paragraphs and lists.
function print_description(i) {
  heading("DESCRIPTION")
  fill(prose(sentence(field[first(page, "about"), 1])))
  for (i = 1; i <= records; i++) {
    if (of[i] != page || (kind[i] != "text" && kind[i] != "item")) continue
    print (kind[i] == "text" ? ".PP" : ".TP")
    if (kind[i] == "item") print escaped(field[i, 1])
    fill(prose(sentence(field[i, kind[i] == "item" ? 2 : 1])))
  }
}

# Prints the commands of a program, each with its page.
function print_commands(i) {
  for (i = 1; i <= many_commands; i++) {
    heading("COMMANDS")
    print ".TP"
    print bold(commands[i])
    fill(prose(sentence(field[first(commands[i], "about"), 1])) " See " bold(page_of(commands[i])) "(1).")
  }
}

# Prints the exit statuses of a command, or else those of the program.
function print_statuses(command, i) {
  command = first(page, "status") ? page : ""
  for (i = 1; i <= records; i++) {
    if (of[i] != command || (kind[i] != "status" && kind[i] != "after")) continue
    heading("EXIT STATUS")
    print (kind[i] == "status" ? ".TP" : ".PP")
    if (kind[i] == "status") print bold(field[i, 1])
    fill(prose(sentence(field[i, kind[i] == "status" ? 2 : 1])))
  }
}

# Whether an example calls the command of the page. A page of a program has all.
function is_of_page(line, many, words, i, command) {
  if (page == "") return 1
  many = split(line, words, " ")
  for (i = 1; i <= many; i++) {
    if (words[i] != name) continue
    command = is_command(words[i + 1]) ? words[i + 1] : fallback
    if (command == page) return 1
  }
  return 0
}

# Prints the examples of the page, each group after the sentence that leads to it: those of the program, and its own.
function print_examples(i, lead, is_open) {
  for (i = 1; i <= records; i++) {
    if (kind[i] != "example") {
      if (is_open) print ".fi"
      is_open = 0
      lead = kind[i] == "lead" ? field[i, 1] : ""
    } else if (of[i] == "" ? is_of_page(field[i, 1]) : of[i] == page) {
      heading("EXAMPLES")
      if (!is_open) {
        if (lead != "") begin_paragraph()
        fill(prose(lead))
        print ".IP"
        print ".nf"
      }
      is_open = 1
      print_line(escaped(field[i, 1]))
    }
  }
  if (is_open) print ".fi"
}

# Prints the names of other pages: of a command those of the program and of its other commands.
function print_related(many, names, i, said) {
  if (page != "") said = ", " bold(name) "(1)"
  for (i = 1; page != "" && i <= many_commands; i++) if (commands[i] != page) said = said ", " bold(page_of(commands[i])) "(1)"
  many = split(others, names, " ")
  for (i = 1; i <= many; i++) if (names[i] != name) said = said ", " bold(names[i]) "(1)"
  heading("SEE ALSO")
  fill(substr(said, 3))
}

END {
  print ".TH " toupper(page_of(page)) " 1 \"" date "\" \"hashbag " version "\""
  print ".nh"
  print ".ad l"
  about = field[first(page, "about"), 1]
  sub(/\.$/, "", about)
  heading("NAME")
  fill(escaped(page_of(page)) " \\- " prose(about))
  heading("SYNOPSIS")
  print_usages(page)
  if (page == "") for (i = 1; i <= many_commands; i++) print_usages(commands[i])
  print_description()
  if (page == "") print_commands()
  print_kind(page, "argument", "ARGUMENTS")
  print_kind(page, "option", "OPTIONS")
  print_statuses()
  print_examples()
  print_related()
}
