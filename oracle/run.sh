#!/usr/bin/env bash
# Compares Hipstern with the Rust (oracle/reference: unchanged, and in force), through the archives of crates bridge, bridge_stages and bridge_season.
# The Rust's sources are looked for as sources.sh says. Words are passed on: --long, --seed NUMBER, --count NUMBER, for longer runs, and words of the
# checks to run, as season or telemetry, if not all. The exit status is not 0 where an answer differs.
set -eu
cd "$(dirname "$0")/.."
. oracle/sources.sh oracle

tools/archive.sh bridge
tools/archive.sh bridge_stages
tools/archive.sh bridge_season
cargo build --quiet --release --offline --locked --manifest-path oracle/Cargo.toml
exec "$CARGO_TARGET_DIR/release/compare" "$@"
