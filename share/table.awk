# awk -v name=NAME -f share/paragraphs.awk -f share/table.awk FILE: reads the table of a program's options from the source that has it
# (crates/hashbag_shell/src/table.rt has the form of a table), and writes the records of paragraphs.awk. It fails at a line that can't be read, and at
# a name that nothing has, and says on standard error which. A page, .txt, has no table: it begins with what the program does, and its usage.

# Reports what is wrong with the entry.
function report(what) {
  print "no " what ": " entry > "/dev/stderr"
  failed = 1
}

# Keeps a record for each job that the entry is of.
function keep(fields, i) {
  for (i = 1; i <= many_jobs; i++) records_of[jobs[i]] = records_of[jobs[i]] jobs[i] "\t" fields "\n"
}

# Keeps the options that each command has: these stand before the first heading.
function keep_help(i) {
  for (i = 1; i <= many_jobs; i++) {
    if (jobs[i] in has_help) continue
    has_help[jobs[i]] = 1
    records_of[jobs[i]] = records_of[jobs[i]] jobs[i] "\toption\t-h\t--help\t\tPrint help\t\t\n"
    if (jobs[i] == "") records_of[""] = records_of[""] "\toption\t-V\t--version\t\tPrint version\t\t\n"
  }
}

# Reads a note of an option.
function read_note(note, many, words, i) {
  many = split(note, words, " ")
  if (words[1] == "of") {
    for (i = 2; i <= many; i++) values = values (i == 2 ? "" : ", ") (words[i] == "␣" ? " " : words[i])
  } else if (words[1] == "default") {
    value = words[2]
  } else if (words[1] == "in") {
    has[words[2]] = 1
  } else if (words[1] == "not" || words[1] == "needs") {
    for (i = 2; i <= many; i++) named[words[i]] = entry
  } else if (words[1] == "required" || words[1] == "optional") {
    need = words[1]
  } else if (words[1] != "number" && words[1] != "in-any-case") {
    report("note")
  }
}

# Reads an option or an argument: its names, what it does, and its notes.
function read_argument(many, parts, k, words, short, shown) {
  many = split(entry, parts, / [|] /)
  for (k = split(parts[1], words, " "); k > 1; k--) if (words[k] ~ /^-.$/) short = words[k]; else shown = words[k]
  if (many < 2) report("help")
  text = parts[2]
  values = need = ""
  value = cut("default")
  sub(/ +$/, "", text)
  for (k = 3; k <= many; k++) read_note(parts[k])
  has[words[1]] = 1
  if (words[1] ~ /^--/) {
    if (shown != "") shown = "<" shown ">"
    if (need == "") for (k = 1; k <= many_jobs; k++) options_of[jobs[k]] = " [OPTIONS]"
    else keep_usage(words[1] " " shown)
    keep("option\t" short "\t" words[1] "\t" shown "\t" text "\t" value "\t" values)
  } else {
    shown = shown == "" ? words[1] : shown
    if (sub(/\.\.\.$/, "", shown)) shown = "[" shown "]..."
    else shown = need == "" ? "<" shown ">" : "[" shown "]"
    keep_usage(shown)
    keep("argument\t\t\t" shown "\t" text "\t\t")
  }
}

# Keeps what the usage of the jobs says of an argument, or of an option that has to be given.
function keep_usage(shown, i) {
  for (i = 1; i <= many_jobs; i++) usage_of[jobs[i]] = usage_of[jobs[i]] " " shown
}

# Reads an entry of the table.
function read_entry_of_table(many, words, i) {
  many = split(entry, words, " ")
  if (words[1] == "#" || words[1] == ":") {
    i = words[1] == "#" ? "" : words[2]
    if (i == "" && words[2] != name) report("table of " name)
    if (i != "") order[++all_jobs] = i
    about_of[i] = substr(entry, index(entry, " | ") + 3)
  } else if (words[1] == "@") {
    many_jobs = many - 1
    for (i = 2; i <= many; i++) jobs[i - 1] = words[i]
    for (i = 2; i <= many; i++) if (!(words[i] in about_of)) report("job")
  } else if (words[1] == "=") {
    keep_help()
    keep("group\t" substr(entry, 3))
  } else {
    read_argument()
  }
}

# A text of a source, as it is.
function unescaped(text) {
  gsub(/\\"/, "\"", text)
  gsub(/\\\\/, "\\", text)
  return text
}

# Keeps a line of the text after the options.
function keep_after(line, i) {
  for (i = 1; i <= many_jobs; i++) after[jobs[i], ++many_after[jobs[i]]] = line
}

# Writes the records of a command: "" is the program.
function put_command(job, own, i) {
  command = jobs[1] = job
  many_jobs = 1
  if (usage == "") keep_help()
  put("about", about_of[job])
  own = options_of[job] usage_of[job]
  if (usage != "") put("usage", usage)
  else put("usage", name (job == "" ? "" : " " job) (job == "" && all_jobs ? " <COMMAND>" : own))
  for (i = 1; job == "" && i <= all_jobs; i++) put("command", order[i])
  printf "%s", records_of[job]
  for (i = 1; i <= many_after[job]; i++) read_after(after[job, i])
  end_paragraph()
}

BEGIN { many_jobs = 1 }
FNR == 1 && FILENAME ~ /\.txt$/ { about_of[""] = $0 }
part == "" && /^Usage: / {
  usage = substr($0, 8)
  part = "page"
  next
}
part == "page" { keep_after($0) }
/^pub static OPTIONS: / { part = "table"; next }
/^];/ { part = "" }
part == "table" && sub(/^    "\. /, "") { part = "after" }
part == "after" {
  if (sub(/",$/, "")) part = "table"
  keep_after(unescaped($0))
  next
}
part == "table" {
  sub(/^ +/, "")
  entry = is_open ? entry $0 : $0
  is_open = sub(/\\$/, "", entry)
  if (is_open) next
  if (!sub(/^"/, "", entry) || !sub(/",$/, "", entry)) report("entry")
  entry = unescaped(entry)
  read_entry_of_table()
}
END {
  for (i in named) {
    entry = named[i]
    if (!(i in has)) report("such name")
  }
  put_command("")
  for (i = 1; i <= all_jobs; i++) put_command(order[i])
  exit failed || !("" in about_of)
}
