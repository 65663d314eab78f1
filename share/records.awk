# Read before man.awk, bash.awk and zsh.awk: keeps the records of paragraphs.awk, and finds those of a command ("": the program).
BEGIN { FS = "\t" }
{
  records++
  of[records] = $1
  kind[records] = $2
  # of an argument or an option: short, long, the value, text, default, values; of others fewer
  for (i = 1; i <= 6; i++) field[records, i] = $(i + 2)
}
$1 == "" && $2 == "command" { commands[++many_commands] = $3 }
$1 == "" && $2 == "default" { fallback = $3 }

# The first record of a kind, or 0.
function first(command, wanted, i) {
  for (i = 1; i <= records; i++) if (of[i] == command && kind[i] == wanted) return i
  return 0
}

# Whether a word is a command.
function is_command(word, i) {
  for (i = 1; i <= many_commands; i++) if (commands[i] == word) return 1
  return 0
}

# Whether a record is an option that a command takes. Without a command these are the options of the program, and of the command if none is named.
function is_option(i, command) {
  return kind[i] == "option" && (of[i] == command || (command == "" && fallback != "" && of[i] == fallback))
}

# A text as a word of a script.
function quoted(text, many, parts, i, done) {
  many = split(text, parts, "'")
  for (i = 1; i <= many; i++) done = done (i == 1 ? "" : "'\\''") parts[i]
  return "'" done "'"
}
