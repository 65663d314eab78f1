#!/usr/bin/env bash
# bash tests/pages/kit.sh: compares the logic of this kit of Rattle with the one that README.md names. Kits with one logic prove the same. With another
# logic proofs may fail that are right, so it warns and goes on: the status is 0, or 1 if README.md names no logic or `rt` isn't there.
set -u
cd "$(dirname "$0")/../.." || exit 1
named=$(grep -o 'logic `[0-9a-f]\{16\}`' README.md | head -n 1 | tr -d '`')
[ -n "$named" ] || { echo "kit: README.md names no logic, as in: logic \`0123456789abcdef\`"; exit 1; }
here=$(rt version) || { echo "kit: rt version failed: the kit's folder bin has to be on PATH"; exit 1; }
case "$here" in
  *" $named"*) echo "kit: $here, as README.md says" ;;
  *)
    echo "kit: WARNING: $here, and README.md names $named: with another logic a proof may fail that is right"
    echo "kit: docs/build/CONTRIBUTING.md, 'A new kit', says what to do"
    ;;
esac
