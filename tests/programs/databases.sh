# Read by tests/programs/stock.sh and tests/programs/dates.sh: Python's own module of SQLite, on the databases of a run.

# sql DATABASE TEXT: what Python's SQLite returns, a row a line, values with bars between them
sql() {
  python3 - "$1" "$2" << 'EOF'
import sqlite3, sys
connection = sqlite3.connect(sys.argv[1])
for row in connection.execute(sys.argv[2]):
    print("|".join("" if value is None else str(value) for value in row))
connection.commit()
connection.close()
EOF
}

# is DATABASE TEXT WANTED WHAT: Python's SQLite returns this
is() {
  local found
  found=$(sql "$1" "$2")
  [ "$found" = "$(printf -- "$3")" ] || fail "$4: $found"
}
