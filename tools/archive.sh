#!/usr/bin/env bash
# Proves and builds the archive that C and the comparison link: tools/archive.sh NAME writes target/staticlib/libNAME.a, of the static library NAME,
# or of NAME_c, which exports what C calls of the library NAME. The exit status is not 0 where anything is not proved.
set -euo pipefail
cd "$(dirname "$0")/.."
crate=$1
[ ! -d "crates/$1_c" ] || crate=$1_c
mkdir -p target/staticlib
if ! (cd "crates/$crate" && rt lib) >target/staticlib/out 2>&1; then
  tail -n 20 target/staticlib/out >&2
  echo "archive: $crate was not proved and built: the lines above are the last of target/staticlib/out" >&2
  exit 1
fi
cp "crates/$crate/out/lib$crate.a" "target/staticlib/lib$1.a"
