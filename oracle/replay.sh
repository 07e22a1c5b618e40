#!/usr/bin/env bash
# Writes what the Rust answers, for the tests that run without it: samples/expected.txt, and the requests of crates/replay with their answers and the
# page on what each is for. With --check it writes nothing, and its exit status says whether the stored answers are the Rust's to the samples and to
# the stored requests, and each slip is told by one of these. With --many COUNT it holds the program replay to the Rust's listings of so many random
# requests, and stores nothing. The sources are looked for as sources.sh says.
set -eu
cd "$(dirname "$0")/.."
. oracle/sources.sh replay

cargo build --quiet --release --offline --locked --manifest-path oracle/Cargo.toml -p replay
replay=$CARGO_TARGET_DIR/release/replay
made=target/replay
mkdir -p $made
if [ "${1:-}" = --many ]; then
  "$replay" many "$2" $made
  tools/program.sh replay
  target/bin/replay <$made/stdin | cmp - $made/stdout
  echo "replay: $(grep -cE '^(refused|levels) ' $made/stdout) random requests with the Rust's answers, $(grep -c ' cut [1-9]' $made/stdout) of them with a cut link"
  exit
fi
"$replay" samples samples >$made/expected.txt
if [ "${1:-}" = --check ]; then
  "$replay" answers crates/replay/stdin >$made/stdout
  cmp $made/expected.txt samples/expected.txt
  cmp $made/stdout crates/replay/stdout
else
  "$replay" requests samples $made
  cp $made/expected.txt samples/expected.txt
  cp $made/stdin $made/stdout crates/replay/
  cp $made/REQUESTS.md oracle/replay/REQUESTS.md
fi
echo "replay: $(grep -c '^==' samples/expected.txt) samples and $(grep -cE '^(refused|levels) ' crates/replay/stdout) requests with the Rust's answers"
