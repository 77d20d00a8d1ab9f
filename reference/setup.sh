#!/bin/sh
# Makes the reference ready on a Debian machine, from nothing: Debian's packages, the original's
# files, the build. It may be run again at any time.
#
#   reference/setup.sh
#   VISIONCORTEX_SRC=CHECKOUT reference/setup.sh   where the original is not at its usual place
#
# Exit status: 0 ready; 3 the original is not there; another one where something failed.
set -eu

say() {
    echo "setup: $*"
}

if [ -n "${VISIONCORTEX_SRC:-}" ]; then
    VISIONCORTEX_SRC=$(realpath -m "$VISIONCORTEX_SRC")
    export VISIONCORTEX_SRC
fi
cd "$(dirname "$0")"
# shellcheck source=reference/packages.sh
. ./packages.sh

original=${VISIONCORTEX_SRC:-$(realpath -m ../../shared/docs/src)}
[ -d "$original" ] || {
    say "the original is not at $original: visioncortex, commit 0062088c89," >&2
    say "https://github.com/visioncortex/visioncortex; set VISIONCORTEX_SRC to its checkout" >&2
    exit 3
}
sums=$PWD/visioncortex/SHA256SUMS
(cd "$original" && sha256sum --check --quiet "$sums") || {
    say "the files at $original are not the original's: visioncortex, commit 0062088c89," >&2
    say "https://github.com/visioncortex/visioncortex; set VISIONCORTEX_SRC to its checkout" >&2
    exit 1
}

# shellcheck disable=SC2086 # the names are words of their own
install $reference_packages
install_cargo
say "$(cargo --version)"

say "building"
cargo build --release --offline --quiet
say "done: $PWD/target/release/judge"
