#!/usr/bin/env bash
# The season planner over the library's archive: builds planner.c, runs it on samples/ and holds what it prints to expected.txt; then caps.cpp, the
# same calls from C++. First, that samples/make.sh still writes the samples that are stored. The exit status is not 0 on a difference.
set -euo pipefail
cd "$(dirname "$0")/.."
export LC_ALL=C

made=target/planner/samples
rm -rf "$made"
samples/make.sh "$made"
diff -r --exclude=README.md --exclude="*.sh" --exclude=expected.txt --exclude=.gitattributes samples "$made"

tools/archive.sh multilevel
archive=target/staticlib/libmultilevel.a
cc -std=c99 -Wall -Wextra -Werror -O2 -o target/planner/planner planner/planner.c $archive
target/planner/planner samples/*.links | diff planner/expected.txt -
c++ -Wall -Wextra -Werror -O2 -o target/planner/caps planner/caps.cpp $archive
target/planner/caps | diff <(echo '3 2 1 10') -
echo "planner: $(wc -l <planner/expected.txt) lines as expected, and the calls from C++"
