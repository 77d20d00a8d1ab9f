#!/bin/sh
# Holds the archive against the original under valgrind's memcheck, every buffer a block of memory of
# exactly the length asked, and what a call has no reason to read undefined. reference/archive.sh
# comes first. The status is 0 where nothing differs and valgrind reports nothing, 3 where it reports
# an error, else that of differ.
#
#   reference/memcheck.sh                          10,040 cases
#   reference/memcheck.sh --small 100000 --seed 2  other counts, as for differ
#   reference/memcheck.sh --short                  each buffer shorter than told: errors must be reported
set -eu

say() {
    echo "memcheck: $*"
}

cd "$(dirname "$0")"
. ./packages.sh
install valgrind

# A wide zone around each block: also what lies far beyond one is no other block.
valgrind --error-exitcode=3 --redzone-size=4096 --leak-check=no \
    target/release/differ --exact --small 6000 --large 40 --refused 2000 --damaged 2000 "$@"
