#!/usr/bin/env bash
# The program `share`: on every sample, held to expected.txt, which the Rust wrote (oracle/replay.sh); on input that is no file; with nobody there
# to read what it prints; and through ./run. The exit status is not 0 on a difference.
set -euo pipefail
cd "$(dirname "$0")/.."
export LC_ALL=C

./run >/dev/null
share=target/bin/share
failed=0

# same NAME EXPECTED GOT: two texts
same() {
  if [ "$2" != "$3" ]; then
    printf 'share: %s: expected\n%s\ngot\n%s\n' "$1" "$2" "$3"
    failed=1
  fi
}

# every sample, and each refusal that a file can cause among them
for file in samples/*.links; do
  name=${file##*/}
  echo "== ${name%.links}"
  timeout 60 "$share" <"$file"
done | diff samples/expected.txt - || failed=1
for number in 1 2 3 6 7 8 9 10 13 14; do
  grep -qx "refused $number" samples/expected.txt || { echo "share: no sample for refusal $number"; failed=1; }
done
same 'path4, document 01' "$(cat crates/share/stdout)" "$("$share" <samples/path4.links)"

# no input, a closed one, a folder; far too long ones: zeros, a good file and more, a file beyond the limits and more, the longest file and a byte or more
zeros() { head -c "$1" /dev/zero; }
same 'empty input' 'refused 10' "$("$share" </dev/null)"
same 'closed input' 'refused 10' "$("$share" <&-)"
same 'a folder' 'refused 10' "$("$share" <samples)"
set +o pipefail # what writes a long input may meet a program that has ended
same '1 MB of zeros' 'refused 10' "$(zeros 1000000 | timeout 60 "$share")"
same 'a good file and 1 MB' 'refused 10' "$({ cat samples/path4.links && zeros 1000000; } 2>/dev/null | timeout 60 "$share")"
same 'too many ranks and 1 MB' 'refused 3' "$({ cat samples/over-k9.links && zeros 1000000; } 2>/dev/null | timeout 60 "$share")"
same 'the longest file and a byte' 'refused 10' "$({ cat samples/workloads-torus64.links && zeros 1; } | timeout 60 "$share")"
same 'the longest file and 1 MB' 'refused 10' "$({ cat samples/workloads-torus64.links && zeros 1000000; } 2>/dev/null | timeout 60 "$share")"
set -o pipefail
# bytes that come one by one
same 'a byte at a time' "$(cat crates/share/stdout)" "$(for ((i = 1; i <= 52; i++)); do head -c $i samples/path4.links | tail -c 1; done | timeout 60 "$share")"

# output that is closed, full, or read by nobody: it ends, by itself or by the system's signal (141)
status=0
timeout 60 "$share" <samples/torus64.links >&- || status=$?
same 'closed output' 0 $status
status=0
timeout 60 "$share" <samples/torus64.links >/dev/full || status=$?
same 'full output' 0 $status
{
  sleep 0.2
  status=0
  timeout 60 "$share" <samples/torus64.links || status=$?
  [ $status = 0 ] || [ $status = 141 ] || echo "share: nobody reads: status $status" >&2
} 2>target/share.pipe | true
same 'output that nobody reads' '' "$(cat target/share.pipe)"

# ./run: the listing, and status 1 for a refusal
same './run' "$(cat crates/share/stdout)" "$(./run)"
status=0
refusal=$(./run samples/bad-short.links 2>/dev/null) || status=$?
same './run of a refused file' 'refused 10, status 1' "$refusal, status $status"
same './run FILE' "$("$share" <samples/torus64.links)" "$(cd samples && ../run torus64.links)"
same './run of no file' 'run: no file that can be read: no/such.links' "$(./run no/such.links 2>&1 || true)"
same './run of a folder' 'run: no file that can be read: samples' "$(./run samples 2>&1 || true)"
mkdir -p target/no-rt
rm -f target/no-rt/dirname
cp "$(command -v dirname)" target/no-rt/dirname
same './run without rt' 'run: rt, the Rattle toolchain, is not on the PATH' "$(PATH=target/no-rt "$BASH" run 2>&1 || true)"

[ $failed = 0 ] || exit 1
echo "share: $(grep -c '^==' samples/expected.txt) samples and other inputs as expected"
