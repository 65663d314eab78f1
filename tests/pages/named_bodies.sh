#!/usr/bin/env bash
# bash tests/pages/named_bodies.sh: each wrong body that docs/prove/WRONG_BODIES.md names has to be there.
set -u
cd "$(dirname "$0")/../.." || exit 1
page=docs/prove/WRONG_BODIES.md
# A row that names several has the crate before the first alone.
named=$(awk -F'|' '/^\|/ { n = split($3, it, "`"); crate = ""; for (i = 2; i <= n; i += 2) { if (split(it[i], p, "/") == 2) { crate = p[1]; body = p[2] } else body = it[i]
  if (crate != "") print crate "/" body } }' "$page")
[ -n "$named" ] || { echo "named_bodies: $page names no wrong body"; exit 1; }
for body in $named; do
  [ -f "crates/${body%/*}/refused/${body#*/}.edit" ] || { echo "named_bodies: $page names $body, which isn't there"; exit 1; }
done
echo "named_bodies: $(wc -w <<< "$named") wrong bodies"
