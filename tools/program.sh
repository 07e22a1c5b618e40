#!/usr/bin/env bash
# Proves and builds a program: tools/program.sh NAME writes target/bin/NAME. The exit status is not 0 where anything is not proved.
set -euo pipefail
cd "$(dirname "$0")/.."
mkdir -p target/bin
# what is built is run once, on no input
if ! (cd "crates/$1" && rt run) </dev/null >target/bin/out 2>&1; then
  tail -n 20 target/bin/out >&2
  echo "program: $1 was not proved and built: the lines above are the last of target/bin/out" >&2
  exit 1
fi
cmp -s "crates/$1/out/$1" "target/bin/$1" || cp "crates/$1/out/$1" "target/bin/$1"
