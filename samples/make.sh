#!/usr/bin/env bash
# Writes every sample link file: samples/make.sh [FOLDER], by default into the folder of this script.
set -eu
folder=${1:-$(dirname "$0")}
mkdir -p "$folder"

# numbers NAME NUMBER..: a file of these numbers, each of four bytes, the lowest first
numbers() {
  local name=$1 text='' four x
  shift
  for x; do
    printf -v four '\\x%02x' $((x & 255)) $((x >> 8 & 255)) $((x >> 16 & 255)) $((x >> 24 & 255))
    text+=$four
  done
  printf '%b' "$text" >"$folder/$name.links"
}

# site NAME N K MAX_LEVELS PER_RANK IMBALANCE PASSES LINK.. [with WORKLOAD..]: a site's file; a link is LOW-HIGH
site() {
  local name=$1 n=$2 rest=("${@:3:5}") links=()
  shift 7
  while (($# > 0)) && [ "$1" != with ]; do
    links+=("$1")
    shift
  done
  numbers "$name" "$n" ${#links[@]} "${rest[@]}" "${links[@]%-*}" "${links[@]#*-}" "${@:2}"
}

# first NAME FROM BYTES: so many of another sample's bytes
first() {
  head -c "$3" "$folder/$2.links" >"$folder/$1.links"
}

path4=(0-1 1-2 2-3)
star4=(0-1 0-2 0-3)
pairs=(0-1 2-3 4-5)
# a torus of 8 times 8: 64 vertices and 128 links, the most that a file may have
torus=()
most=()
for ((v = 0; v < 64; v++)); do
  most+=(10000)
  if ((v % 8 < 7)); then torus+=("$v-$((v + 1))"); fi
  if ((v % 8 == 0)); then torus+=("$v-$((v + 7))"); fi
  if ((v < 56)); then torus+=("$v-$((v + 8))"); fi
  if ((v < 8)); then torus+=("$v-$((v + 56))"); fi
done

# document 01's sites by hand, but for the one without links: no file may have it (lone4 below), and only the library divides it
site path4 4 2 12 64 30 2 "${path4[@]}"
site path4-coarse 4 2 12 1 30 2 "${path4[@]}"
site path4-k3-t499 4 3 12 64 499 2 "${path4[@]}"
site path4-k3-t500 4 3 12 64 500 2 "${path4[@]}"
site path5-t199 5 2 12 64 199 2 "${path4[@]}" 3-4
site path5-t200 5 2 12 64 200 2 "${path4[@]}" 3-4
site star4-level1 4 2 1 1 30 2 "${star4[@]}"
site star4-t499 4 2 12 1 499 2 "${star4[@]}"
site star4-t500 4 2 12 1 500 2 "${star4[@]}"
site pairs-t333 6 4 12 1 333 2 "${pairs[@]}"
site pairs-t334 6 4 12 1 334 2 "${pairs[@]}"
# two crews offer a move the same gain, and the lighter one is not the lower (request P4)
site lighter8 8 3 1 2 500 3 0-1 0-2 0-5 0-6 0-7 1-3 1-4 1-5 1-7 2-3 2-4 2-5 2-7 3-5 3-6 4-6 4-7 5-7
# one turbine, which alone may be without a link (request P7)
site one 1 1 12 64 30 2
# every size at its limit
site torus64 64 8 12 1 100 2 "${torus[@]}"
# workloads (request P1): a swap that would lift a load to the floor, and one that would bring a load above the cap: neither is made; each 1, as
# in path4; each at its limit, in the longest file; one above the cap
site workloads5 5 3 2 2 200 2 0-1 0-3 1-2 2-3 2-4 with 1064 8401 2172 6255 4692
site workloads4 4 3 3 2 366 3 0-3 1-3 2-3 with 5 4 3 6
site workloads-ones 4 2 12 64 30 2 "${path4[@]}" with 1 1 1 1
site workloads-torus64 64 8 12 1 100 2 "${torus[@]}" with "${most[@]}"
site workloads-above-cap 4 2 12 64 30 2 "${path4[@]}" with 1 1 1 10

# accepted by the check, and refused by a division for the options (1) or the counts (2)
site option-levels0 4 2 0 64 30 2 "${path4[@]}"
site option-per-rank0 4 2 12 0 30 2 "${path4[@]}"
site option-passes0 4 2 12 64 30 0 "${path4[@]}"
site option-t501 4 2 12 64 501 2 "${path4[@]}"
site count-n0 0 1 12 64 30 2
site count-k0 4 0 12 64 30 2 "${path4[@]}"
site count-k5 4 5 12 64 30 2 "${path4[@]}"

# one size above its limit (3)
site over-n65 65 8 12 1 100 2 "${torus[@]}"
site over-e129 64 8 12 1 100 2 0-1 0-2 "${torus[@]:1}"
site over-k9 64 9 12 1 100 2 "${torus[@]}"
site over-levels13 64 8 13 1 100 2 "${torus[@]}"
# the limits come before the length, and before the links
first over-k9-cut over-k9 100
# path4 with each number's highest byte first
numbers over-byte-order $((4 << 24)) $((3 << 24)) $((2 << 24)) $((12 << 24)) $((64 << 24)) $((30 << 24)) $((2 << 24)) \
  0 $((1 << 24)) $((2 << 24)) $((1 << 24)) $((2 << 24)) $((3 << 24))

# a workload out of its range (13)
site workload-0 4 2 12 64 30 2 "${path4[@]}" with 1 1 0 1
site workload-10001 4 2 12 64 30 2 "${path4[@]}" with 1 1 1 10001

# a lone turbine (14): all of four, document 01's site without links; both of two; the last alone
site lone4 4 2 12 1 30 2
site lone2 2 1 12 64 30 2
site lone-last 4 2 12 64 30 2 0-1 1-2
# the workloads come before it
site workload-0-lone 4 2 12 64 30 2 0-1 1-2 with 1 1 0 1

# malformed (10): the length
numbers bad-empty
first bad-short path4 27
first bad-header-only path4 28
first bad-cut path4 51
{
  cat "$folder/path4.links"
  printf '\0'
} >"$folder/bad-long.links"
site bad-between 4 2 12 64 30 2 "${path4[@]}" with 1 1
site bad-beyond 4 2 12 64 30 2 "${path4[@]}" with 1 1 1 1 1
# malformed (10): the links
site bad-order-low 4 2 12 64 30 2 0-1 2-3 1-2
site bad-order-high 4 2 12 64 30 2 0-2 0-1 0-3
site bad-repeat 4 2 12 64 30 2 0-1 0-1 2-3
site bad-low-above-high 4 2 12 64 30 2 0-1 2-1 2-3
site bad-self 4 2 12 64 30 2 0-1 1-1 2-3
site bad-end-n 4 2 12 64 30 2 0-1 1-2 2-4
# the links come before the workloads, and before a lone turbine
site bad-end-n-workload-0 4 2 12 64 30 2 0-1 1-2 2-4 with 1 1 0 1
site bad-order-lone 4 2 12 64 30 2 1-2 0-1
