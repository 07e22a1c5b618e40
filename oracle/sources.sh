# Read by the scripts beside it, in the repository's root: where the Rust's sources are (HIPSTERN_RUST_SRC, from the root if it is relative, by
# default ../shared/docs/src), and where cargo builds. Where there are none, or no cargo, a script ends here with one line and status 77, which
# ./test counts as skipped: $1 is what is skipped.
sources=${HIPSTERN_RUST_SRC:-../shared/docs/src}
if [ ! -d "$sources" ]; then
  echo "$1: skipped: the Rust's sources are not at $sources (HIPSTERN_RUST_SRC)"
  exit 77
fi
if ! command -v cargo >/dev/null; then
  echo "$1: skipped: cargo is not on the PATH"
  exit 77
fi
HIPSTERN_RUST_SRC=$(cd "$sources" && pwd)
CARGO_TARGET_DIR=$PWD/target/oracle
export HIPSTERN_RUST_SRC CARGO_TARGET_DIR
# what the Rust reads of the environment
unset HYBIT_A6_F12_MERGE HYBIT_A6_F10_PHASE HYBIT_A6_PHASE_PROFILE
