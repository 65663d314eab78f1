# awk -v name=NAME -f share/records.awk -f share/zsh.awk: writes the completions of a program for zsh, from the records of paragraphs.awk.

# What `_arguments` knows of an option under one of its names.
function spec(i, option, mark, text, value, many, parts, k, list) {
  text = field[i, 4]
  gsub(/[][\\]/, "\\\\&", text)
  if (text != "") text = "[" text "]"
  text = option (field[i, 3] == "" ? "" : mark) text
  if (field[i, 1] != "" && field[i, 2] != "") text = "(" field[i, 1] " " field[i, 2] ")" text
  if (field[i, 3] == "") return quoted(text)
  value = substr(field[i, 3], 2, length(field[i, 3]) - 2)
  gsub(/:/, "\\:", value)
  many = split(field[i, 6], parts, ", ")
  for (k = 1; k <= many; k++) {
    gsub(/[^A-Za-z0-9]/, "\\\\&", parts[k])
    list = list (k == 1 ? "" : " ") parts[k]
  }
  return quoted(text ":" value ":" (many ? "(" list ")" : "_files"))
}

# Prints a call of `_arguments` with the options of a command, and files.
function print_arguments(command, indent, i, seen) {
  print indent "_arguments -s -S \\"
  for (i = 1; i <= records; i++) {
    if (!is_option(i, command)) continue
    if ((field[i, 1] " " field[i, 2]) in seen) continue
    seen[field[i, 1] " " field[i, 2]] = 1
    if (field[i, 1] != "") print indent "  " spec(i, field[i, 1], "+") " \\"
    if (field[i, 2] != "") print indent "  " spec(i, field[i, 2], "=") " \\"
  }
  print indent "  '*:file:_files'"
}

END {
  print "#compdef " name
  print "# Completions of " name " for zsh. `bash install` made them."
  if (!many_commands) {
    print_arguments("", "")
    exit
  }
  print "local command=''"
  print "local -a commands"
  print "commands=("
  for (i = 1; i <= many_commands; i++) {
    print "  " quoted(commands[i] ":" field[first(commands[i], "about"), 1])
    names = names (i == 1 ? "" : "|") commands[i]
  }
  print ")"
  print "if (( CURRENT > 2 )) && [[ $words[2] = (" names ") ]]; then"
  print "  command=$words[2]"
  print "  shift words"
  print "  (( CURRENT-- ))"
  print "elif (( CURRENT == 2 )); then"
  print "  _describe -t commands command commands"
  print "fi"
  print "case $command in"
  for (i = 1; i <= many_commands; i++) {
    print "  " commands[i] ")"
    print_arguments(commands[i], "    ")
    print "    ;;"
  }
  print "  *)"
  print_arguments("", "    ")
  print "    ;;"
  print "esac"
}
