#!/usr/bin/env bash
# bash tests/pages/gate_figure.sh [said]: the price of a gate from nothing, which `bash tests/all whole` measured: the processor minutes of its steps tests,
# proofs and programs in tests/whole.txt. The wrong bodies that a gate tries come to that. No page has a figure of it. said: prints it.
set -u
cd "$(dirname "$0")/../.." || exit 1
minutes=$(awk '/^(tests|proofs|programs) / { s += $2; n++ } END { if (n == 3) printf "%d", s + 0.5 }' tests/whole.txt)
if [ "${1-}" = said ]; then
  [ -z "$minutes" ] || echo "From nothing it takes $minutes processor minutes, and what the wrong bodies take that are tried."
  exit 0
fi
[ -n "$minutes" ] || { echo "gate_figure: tests/whole.txt lacks one of the steps: bash tests/all whole"; exit 1; }
found=$(grep -nE 'gate.*[0-9] processor minutes' README.md docs/build/CONTRIBUTING.md)
[ -z "$found" ] || { echo "gate_figure: $found: tests/whole.txt has that figure"; exit 1; }
echo "gate_figure: $minutes processor minutes"
