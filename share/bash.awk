# awk -v name=NAME -f share/records.awk -f share/bash.awk: writes the completions of a program for bash, from the records of paragraphs.awk.

# A word of a script, without quotes if it needs none.
function word(text) {
  return text ~ /^[A-Za-z0-9_.-]+$/ ? text : quoted(text)
}

# The options of a command, with a space before each.
function options_of(command, i, k, done, seen) {
  for (i = 1; i <= records; i++) {
    if (!is_option(i, command)) continue
    for (k = 1; k <= 2; k++) {
      if (field[i, k] != "" && !(field[i, k] in seen)) done = done " " word(field[i, k])
      seen[field[i, k]] = 1
    }
  }
  return done
}

# Prints a case for each option of a command that has a list of values.
function print_values(command, i, k, names, many, parts, values) {
  for (i = 1; i <= records; i++) {
    if (!is_option(i, command) || field[i, 6] == "") continue
    names = quoted(command " " field[i, 2])
    if (field[i, 1] != "") names = quoted(command " " field[i, 1]) " | " names
    many = split(field[i, 6], parts, ", ")
    values = word(parts[1])
    for (k = 2; k <= many; k++) values = values " " word(parts[k])
    print "    " names ") values=(" values ") ;;"
  }
}

# The commands, with this between them.
function commands_with(between, i, done) {
  for (i = 1; i <= many_commands; i++) done = done (i == 1 ? "" : between) commands[i]
  return done
}

# Prints what is offered if no list of values is: options, or else files, and commands in the first place.
function print_words(i) {
  print "      case \"$command $word\" in"
  print "        ' -'*) values=(" substr(options_of(""), 2) ") ;;"
  for (i = 1; i <= many_commands; i++) print "        '" commands[i] " -'*) values=(" substr(options_of(commands[i]), 2) ") ;;"
  print "        *)"
  print "          mapfile -t COMPREPLY < <(compgen -f -- \"$word\")"
  print "          compopt -o filenames 2> /dev/null"
  if (many_commands) print "          [ \"$COMP_CWORD\" != 1 ] || values=(" commands_with(" ") ")"
  print "          ;;"
  print "      esac"
}

END {
  print "# Completions of " name " for bash. `bash install` made them."
  print "_" name "() {"
  print "  local word=${COMP_WORDS[COMP_CWORD]} before=${COMP_WORDS[COMP_CWORD - 1]} command='' value values=()"
  print "  # `--to=json` is three words."
  print "  [ \"$before\" != = ] || before=${COMP_WORDS[COMP_CWORD - 2]}"
  print "  [ \"$word\" != = ] || word=''"
  print "  COMPREPLY=()"
  if (many_commands) {
    print "  [ \"$COMP_CWORD\" = 1 ] || case ${COMP_WORDS[1]} in"
    print "    " commands_with(" | ") ") command=${COMP_WORDS[1]} ;;"
    print "  esac"
  }
  print "  case \"$command $before\" in"
  print_values("")
  for (i = 1; i <= many_commands; i++) print_values(commands[i])
  print "    *)"
  print_words()
  print "      ;;"
  print "  esac"
  print "  for value in \"${values[@]}\"; do"
  print "    [[ $value != \"$word\"* ]] || COMPREPLY+=(\"$(printf %q \"$value\")\")"
  print "  done"
  print "}"
  print "complete -o default -F _" name " " name
}
