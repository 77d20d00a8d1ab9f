#!/bin/sh
# Builds the proved library as an archive, where rt is on the PATH, and the programs that link it.
# reference/setup.sh comes first. It may be run again at any time.
#
#   reference/archive.sh
#   COLOR_CLUSTERS_LIB=FOLDER reference/archive.sh   links the archive in that folder, builds none
set -eu

say() {
    echo "archive: $*"
}

# absolute NAME VALUE: exports the variable NAME as the absolute path of VALUE, if there is one.
absolute() {
    [ -z "$2" ] || export "$1=$(realpath -m "$2")"
}

absolute COLOR_CLUSTERS_LIB "${COLOR_CLUSTERS_LIB:-}"
absolute VISIONCORTEX_SRC "${VISIONCORTEX_SRC:-}"
cd "$(dirname "$0")"

if [ -n "${COLOR_CLUSTERS_LIB:-}" ]; then
    say "linking the archive in $COLOR_CLUSTERS_LIB"
elif command -v rt >/dev/null; then
    say "proving and compiling the library"
    (cd ../crates/color_clusters_c && rt lib)
    mkdir -p ../target/staticlib
    cp ../crates/color_clusters_c/out/libcolor_clusters_c.a ../target/staticlib/libcolor_clusters.a
else
    say "there is no rt; linking the archive that is there"
fi

say "building"
cargo build --release --offline --quiet --package archive
say "done: $PWD/target/release/differ and bench"
