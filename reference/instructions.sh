#!/bin/sh
# Prints how many machine instructions one call of color_clusters_run and one of color_clusters_paint
# take on the benchmark's images, by valgrind's callgrind: unlike times, the same on every run.
# reference/archive.sh comes first.
#
#   reference/instructions.sh                      the textures that bench times, but those with a key
#   reference/instructions.sh key-marks key-noise  those named; the ones with a key take half a minute each
set -eu

say() {
    echo "instructions: $*" >&2
}

# count PART TEXTURE: the instructions of the one call of color_clusters_PART.
count() {
    log=$(valgrind --tool=callgrind --callgrind-out-file=/dev/null --toggle-collect="color_clusters_$1" \
        target/release/bench --once "$1" --texture "$2" 2>&1) || { echo "$log" >&2; exit 1; }
    number=$(echo "$log" | sed -n 's/^==[0-9]*== Collected : //p')
    # 0 where nothing has that name.
    [ "${number:-0}" -gt 0 ] || { say "callgrind saw no color_clusters_$1"; exit 1; }
    echo "$number" | sed ':group; s/\([0-9]\)\([0-9]\{3\}\)\($\|,\)/\1,\2\3/; t group'
}

cd "$(dirname "$0")"
. ./packages.sh
install valgrind

# With ERMS memset clears by one instruction, which callgrind counts once for each byte.
export GLIBC_TUNABLES=glibc.cpu.hwcaps=-ERMS

[ $# -gt 0 ] || set -- flat chart slight-noise noisy-chart noise
echo '| Texture | Run | Paint |'
echo '|---|---|---|'
for texture in "$@"; do
    run=$(count run "$texture")
    paint=$(count paint "$texture")
    echo "| $texture | $run | $paint |"
done
