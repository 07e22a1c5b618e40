#!/usr/bin/env bash
# Prints how many times as fast as the oracle in force a division is, as a plain count in Rust a crane week is and a season's days are, and as the
# unchanged Rust a site's telemetry is, from one run: the tables of docs/BENCHMARK.md, through the archives of crates bridge and bridge_season; that of
# bridge_stages is linked too. Words are passed on: --times NUMBER, or names of rows. The Rust's sources are looked for as sources.sh says.
set -eu
cd "$(dirname "$0")/.."
. oracle/sources.sh benchmark

tools/archive.sh bridge >&2
tools/archive.sh bridge_stages >&2
tools/archive.sh bridge_season >&2
cargo build --quiet --release --offline --locked --manifest-path oracle/Cargo.toml
exec "$CARGO_TARGET_DIR/release/benchmark" "$@"
