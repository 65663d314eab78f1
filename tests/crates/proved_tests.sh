#!/usr/bin/env bash
# bash tests/crates/proved_tests.sh: proves by `rt ci` what beside/ has, the examples of doc comments, and what these use, in a repository of
# theirs, and runs it as two compilers build it. A landing doesn't do that, but a change of what beside/ has does, and each release. It takes two
# hours and a quarter of a processor beyond what the gate has proved on this machine. The last line is that of `rt ci`: 'N passed, M failed'.
set -u
top=$(cd "$(dirname "$0")/../.." && pwd) || exit 1
scratch=$(mktemp -d) || exit 1
trap 'rm -rf "$scratch"' EXIT
python3 "$top/tests/crates/examples.py" "$scratch/beside" && cd "$scratch/beside" && rt ci
